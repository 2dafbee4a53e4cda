#!/usr/bin/env python3
"""Counts the places of docs/DESIGN-PASS.md in crates/*/src: how often an older form stands, by point.

usage: tools/places.py [--list] [POINT..]        at the top of the repository; --list names each place, POINT is 1 to 7

What needs reading is a list of names here: what is printed of it is which of them still stand. A name that stands may be that of the new
form, so look at it.
"""

import collections
import glob
import re
import sys

FILES = sorted(glob.glob("crates/*/src/*.rt"))
TEXT = {f: open(f, encoding="utf-8").read() for f in FILES}
BARE = {f: re.sub(r"//.*", "", t) for f, t in TEXT.items()}


def crate(f):
    return f.split("/")[1]


NAMES = {crate(f) + "::" + n for f, t in TEXT.items() for n in re.findall(r"\b(?:fn|struct|enum|type) (\w+)", t)}
HEADS = [
    (crate(f) + "::" + m[1], " ".join(m[2].split()))
    for f, t in BARE.items()
    for m in re.finditer(r"\bfn (\w+)(.*?)\n? *\{\n", t, re.S)
]


def lines(pattern, but=None):
    """Lines of code that the pattern finds, each with its place."""
    found = []
    for f, t in BARE.items():
        for i, line in enumerate(t.split("\n"), 1):
            if re.search(pattern, line) and not (but and re.search(but, f + ":" + line)):
                found.append(f"{f}:{i}: {line.strip()}")
    return found


def uses(pattern):
    return [f"{f}: {m}" for f, t in BARE.items() for m in re.findall(pattern, t)]


def in_types(kind, pattern):
    """Lines inside a struct or an enum."""
    found = []
    for f, t in BARE.items():
        inside = None
        for i, line in enumerate(t.split("\n"), 1):
            m = re.match(r"(?:pub )?" + kind + r" (\w+)", line)
            inside = m[1] if m else None if line.startswith("}") else inside
            if inside and re.search(pattern, line):
                found.append(f"{f}:{i}: {inside}: {line.strip()}")
    return found


def standing(group):
    return [
        c + "::" + n
        for c, ns in (part.split(":") for part in group.split())
        for n in ns.split(",")
        if c + "::" + n in NAMES
    ]


# Families of twins, found by reading.
TWINS = """
clock:Moment,DueTime frame:Written,Listed reception:Taken,Reported sender:Turned
reception:Taking,Joining sender:Turning,Dispatch hearing:Following bearer_run:Lent
hearing:End damage:Judged reporting:Totals,Filled
sender:Sender frame:ClosingPdu,DataPdu
items:Key reception:Head
account:Done second_frames:Done,Passed printout:Went
fields:from_u32,from_u16,from_u8
fields:two,four second_frames:case_end
fields:field,word
fields:copy feeding:move_down
bearer_run:same_octets second_frames:same_octets
known_values:say bench_examples:say whole_period:say bearer_run:say
second_frames:put_lengths,put_octets
second_frames:put_written,put_again
hearing:lower reporting:least
numbers_state:phase_number bearer_run:phase_number
account:marks_of_record,elapsed_of_record,sizes_of_record,text_buffer feeding:large_buffer second_frames:list_of_lengths,room_of_frame,text_of_frame
units:all_numbers,all_limits frame:all_sizes
reader:check_refused sender:turn_refused,send_refused hearing:refused,answered,follow joining:refused reporting:refused
several:answer_of numbers_frames:written_in_one,lengths_in_one numbers_ticks:stamp_in_one,due_in_one numbers_sender:keep_turned,keep_sent
numbers_record:fresh_record,hear_frame,hear_all numbers_join:join_in_one numbers_report:report_figures
second_frames:count_of,size_of
numbers_sender:open_state,renew_state,send_data,send_closing,send_closing_with_lengths
numbers_state:no_sender,no_state,sender_of,put_state numbers_head:no_head,head_of,put_head
numbers_frames:put_seven numbers_report:put_figures
numbers_frames:closing_in_one,closing_with_lengths_in_one,data_in_one
sender:opened,renewed,sent,closed,closed_with_lengths bearer:open,new_period,data,close,close_with_lengths
bearer_run:Lent,open,new_period,data,close,close_with_lengths
bearer_run:sent,sent_in_place,closed,closed_in_place,closed_with,closed_with_in_place
bearer_run:data_into,close_into,close_with_into
bearer_run:data,close,close_with,data_no_room,close_no_room,close_with_no_room
whole_period:data_into,close_into,close_with_into
whole_period:data,close,close_with
whole_period:turn,frame,size_of_data
known_values:header,payload
checks:header_check,payload_check,header_end,payload_end,header_rest,payload_rest
checks:with,fold
reader:header_compared,payload_compared
reader:control_of,least_of
reader:data_of,closing_of sender:closing_of numbers_frames:closing_given
reader:sum_lengths writer:list_wrong
reader:read_with_lengths writer:filled_octets
counts:closing_wrong,data_wrong damage:reaches,may_end
writer:write_data,write_closing,write_closing_with_lengths
writer:put_control,put_closing_control
writer:put_two,put_one
sender:fresh,begun,with_packet,at_rest
hearing:open_head,with_closing joining:joined_head
damage:walk reporting:tally,write_gaps telling:put_gaps
reporting:put telling:put_gap
reporting:sent_packets,sent_octets
reporting:made,count
hearing:packet_contradicts,next_fits,end_below joining:is_off,next_follows,end_of
hearing:hear,hear_next,hear_data,next_packet,hear_closing,next_closing
hearing:fresh several:hear_sequence
hearing:clear,clear_heard
hearing:whole,empty_span
damage:lists_differ joining:capacities_off
clock:stamp_of,due
telling:put_two,put_three,put_pair,put_pairs second_frames:put_front
telling:put_refused second_frames:put_refused,put_checks
second_frames:put_closing,put_data
second_frames:write_closing_again,write_lengths_again,write_data_again
account:turn,run,turns_after second_frames:turn,run,turns_after
passing:pass_items second_frames:pass
""".strip().split("\n")

# Functions that do by hand what a derive, a conversion or a method does, found by reading.
BY_HAND = """
equality = hearing:differs damage:other_key,lists_differ,place_wrong,closing_off joining:capacities_off sender:is_open,some_of,rest_wrong bearer_run:same_sequence,same_period,same_octets,same_answer,same_sender second_frames:same_octets
min/max = hearing:lower,higher reporting:least several:end_in
copying = fields:copy feeding:move_down,settled hearing:clear_heard,with_closing joining:joined_head sender:begun,with_packet,at_rest,closing_of numbers_frames:put_seven numbers_state:put_state numbers_head:put_head numbers_report:put_figures
widths = fields:from_u32,from_u16,from_u8 several:place_of clock:lateness
octets = fields:with_next,field,word,put,octet,two,four second_frames:case_end
number-enum = numbers_state:phase_of,phase_number,no_state,no_sender,sender_of numbers_head:closed_number,no_head,head_of bearer_run:phase_number,of_turn,of_frame damage:gap_between reader:control_of,least_of items:next_item hearing:answered,follow numbers_frames:closing_given reader:data_of,closing_of reporting:made
answer-number = units:refusal_in_one several:answer_of numbers_frames:written_in_one,lengths_in_one numbers_ticks:stamp_in_one,due_in_one numbers_sender:keep_turned,keep_sent numbers_join:named second_frames:count_of,size_of
number-answer = reader:check_refused sender:turn_refused,send_refused hearing:refused joining:refused reporting:refused
default = sender:fresh damage:off hearing:open_head,whole,empty_span
printing = lines:digits_of,put_digits,put_text,put_number,put_end telling:put_state,put_sequence,put_figures,put_close,put_gap,put_gaps,put_account,put_refused,put_bad,put_two,put_three,put_pair,put_pairs printout:put_answer second_frames:put_field,put_front,put_closing,put_data,put_checks,put_refused,put_lengths,put_octets,put_written,put_again bearer_run:say,say_answer,say_whether bench_examples:say,say_number whole_period:say,say_refused,say_octet,say_octets known_values:say,header,payload
""".strip().split("\n")

# Facts of `requires`, and what contracts speak of.
REQUIRED = [
    r"\bMatched ",
    r"\bNoneFrom ",
    r"\bNoneBefore ",
    r"is_explained \(held_in[^)]*\) ≡ true",
    r"damaged_kept \(kept_in[^)]*\) ≡ false",
    r"\bReady g ",
    r"at \+ [^×}]*≤ length (out|text)\.old",
    r"at \+ most_text ≤ length",
    r"\bLent ",
    r"\bUpTo ",
    r"(\be|elapsed\.0) < 4294967296",
    r"\b(k|n|i|number\.0) < 65536",
    r"\bk (<|≤) length marks",
    r"\bi(\.0)? ≤ k",
    r"(≤|<) length frame\.now",
    r"(≤|<) length s\.now",
    r"have ≤ length input",
    r"6 ≤ length state",
]
SPOKEN_OF = [
    r"held_in",
    r"kept_in",
    r"between_in",
    r"sender_of state",
    r"head_of",
    r"closing_by",
    r"closing_given",
    r"frames_in",
    r"length result ≡|≡ length result",
    r"result ≤ (turns|reads)",
    r"result ≤ [^×}]*\+ \d|upper_bound",
    r"\bPuts ",
    r"\bSends ",
    r"\bTurns ",
    r"\bTakes ",
    r"\bKeeps ",
    r"\bWrites ",
    r"\bSendsState ",
    r"\bTurnsState ",
    r"\bIsPrefixLen ",
    r"\bFollows ",
    r"\bJoins ",
    r"\bSteps ",
    r"\bWrote ",
]

# Parameters that travel together.
TOGETHER = [
    r"marks: &.*elapsed: &.*sizes: &",
    r"h: Head,.*marks: &",
    r"span: Span,.*marks: &",
    r"g: Going,.*marks: &",
    r"head: &.*marks: &",
    r"(r|other)_marks: ",
    r"bearer: u32, period: u32",
    r"bearer: u32, period: u32, stamp: u32",
    r"(out|text): &mut \[u8\], at: usize",
    r"s: &\[u8\], (at|i): usize",
    r"input: &mut \[u8\], have: usize",
    r"firsts: .*counts: .*octets: ",
    r"lengths: .*room: .*text: ",
    r"octets: &\[u8\], ends: .*answers: ",
    r"stamp: u32, number: \w+, elapsed: ",
    r"elapsed: u64, packets: u32, octets: ",
    r"\w+: Packets, \w+: Octets",
    r"i: u32, a: u64, k: u32, e: u64",
    r"\bk: (usize|Packets), e: \w+, l: ",
    r"state: &mut \[u64\]",
    r"(to|out): &impl Print, name: &str",
    r"n: u32, short: Powers",
    r"from: &mut R,",
]

# Buffers with a place or a length beside, lists that belong together, numbers by place.
BESIDE = {
    "place beside a buffer written": r"(out|text): &mut \[u8\], at: usize",
    "place beside octets read": r"(s|input): &\[u8\], (at|i): usize",
    "length beside a buffer": r"input: &mut \[u8\], (have|from): usize|frame: &\[u8\], n: usize(\)|, out)|s: &\[u8\], m: usize|text: &\[u8\], end: usize",
    "record in three lists": r"marks: &.*elapsed: &.*sizes: &",
    "gaps in three lists": r"firsts: .*counts: .*octets: ",
    "ends and answers": r"ends: .*answers: ",
    "numbers by place": r"(numbers|state|head|figures|said): &(mut )?\[u64\]",
}


def alike():
    """Functions whose bodies are the same but for names, numbers and widths."""
    keep = "if return let mut while for match loop break in else as true false".split()
    widths = "u8 u16 u32 u64 usize".split()
    groups = collections.defaultdict(list)
    for f, t in BARE.items():
        for m in re.finditer(r"^( *)(?:pub )?(?:extern \"C\" )?fn (\w+).*?\{\n(.*?)^\1\}", t, re.S | re.M):
            words = re.findall(r"\w+|[^\s\w]", m[3])
            shape = " ".join(
                "T" if w in widths else "N" if w.isdigit() else w if w in keep or not re.match(r"\w", w) else "I"
                for w in words
            )
            if len(words) > 12:
                groups[shape].append(crate(f) + "::" + m[2])
    return [" ".join(sorted(g)) for g in groups.values() if len(g) > 1]


def requires(head):
    return " ".join(re.findall(r"requires .*?(?= ensures|$)", head))


def contracts(patterns, part):
    rows = []
    for p in patterns:
        found = [n for n, h in HEADS if re.search(p, part(h))]
        if len(found) > 2:
            rows.append(f"{len(found)} {p}: " + " ".join(found))
    return rows


COUNTS = {
    "1": {
        "own answer enums": lambda: in_types("enum", r"\(Refusal\),$"),
        "uses of their arms": lambda: uses(r"\b[A-Z]\w+::(?:Refused|Done|Stamp|At|Lengths|Contradicted)\b"),
        "an answer beside the state": lambda: lines(r"^ +pub answer: "),
        "a flag beside a value": lambda: in_types("struct", r": bool,$"),
        "refusal numbers as constants": lambda: lines(r"^pub const [A-Z_]+: u8 = "),
        "a refusal, kind or mark as a number": lambda: lines(
            r"\b(number|kind|m): u8\b|-> u8\b", r"^crates/(checks|quimdoral)/"
        ),
        "literals with zeros for checks": lambda: lines(r"\bfound: 0,"),
    },
    "2": {
        "families of which two or more stand": lambda: [
            " ".join(standing(g)) for g in TWINS if len(standing(g)) > 1
        ],
        "bodies alike": alike,
    },
    "3": {
        "while and loop": lambda: lines(r"^ +(while |.*\bloop \{)"),
        "for": lambda: lines(r"^ +for "),
        "chains of iterators": lambda: lines(r"\.(iter|iter_mut|chunks_exact|zip|map|sum|any|all)\("),
    },
    "4": {
        **{k.split(" = ")[0]: (lambda k=k: standing(k.split(" = ")[1])) for k in BY_HAND},
        "casts by as": lambda: uses(r" as (?:u8|u16|u32|u64|usize|i32|i64)\b"),
        "calls of from_u8, from_u16, from_u32": lambda: uses(r"\bfrom_u(?:8|16|32)\("),
        "fields copied before use": lambda: lines(r"let ([a-z_]+) = [a-z_]+\.\1;"),
    },
    "5": {
        "facts required in three or more contracts": lambda: contracts(REQUIRED, requires),
        "what three or more contracts speak of": lambda: contracts(SPOKEN_OF, lambda h: h),
        "parameters together in three or more functions": lambda: contracts(TOGETHER, lambda h: h),
    },
    "6": {
        **{k: (lambda p=p: [n for n, h in HEADS if re.search(p, h)]) for k, p in BESIDE.items()},
        "such a length or place in a struct": lambda: in_types("struct", r"(have|at|used|next): usize,"),
    },
    "7": {
        "tests of kinds and flags": lambda: lines(
            r"if (kind|version|phase) ==|if !?(\w+\.)?(stops|over|ended|failed|again)\b|match (phase|item)\b"
        ),
        "function values": lambda: lines(r"\bfn\(|impl Fn|F: Fn|dyn |\|\w*\| "),
    },
}


def main():
    asked = [a for a in sys.argv[1:] if a in COUNTS] or list(COUNTS)
    for point in asked:
        for what, places in COUNTS[point].items():
            found = places()
            print(f"{point}. {what}: {len(found)}")
            if "--list" in sys.argv:
                for place in found:
                    print("     " + place)


if __name__ == "__main__":
    main()
