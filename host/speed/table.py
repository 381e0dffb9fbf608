"""table.py SPEED: measures each case of the program SPEED, counting instructions by callgrind, and prints the page."""
import concurrent.futures
import datetime
import itertools
import os
import platform
import re
import shutil
import subprocess
import sys

SPEED = sys.argv[1]
FEW, MANY = 32, 64  # calls, each of the 16 inputs as often
BLOCK = 20_000_000  # instructions of the library in a block of calls, for the times
WORDS = "agreeing", "mixed"
VERSIONS = "omh", "same", "bools", "any", "second"
RACKS = (4, 1), (7, 2), (10, 3)
LISTS = (3, 0), (6, 0), (9, 0)
# What is called, over which n and m, and the most that library / same may be for each.
CALLS = (
    ("majority", "majority of {n}", LISTS, (1.05, 1.05, 1.05)),
    ("vote", "plain vote ({n}, {m})", RACKS, (1.1, 1.0, 1.0)),
    ("word", "entering a word ({n}, {m})", RACKS, (1.1, 1.1, 1.05)),
    ("enter", "entering a frame ({n}, {m})", RACKS, (1.1, 1.1, 1.05)),
    ("refill", "refilling ({n}, {m})", RACKS, (1.0, 1.0, 1.0)),
    ("longword", "entering a word in the long list ({n}, {m})", RACKS, (1.1, 1.1, 1.05)),
    ("longenter", "entering a frame in the long list ({n}, {m})", RACKS, (1.1, 1.1, 1.05)),
    ("longrefill", "refilling in the long list ({n}, {m})", RACKS, (1.0, 1.0, 1.0)),
    ("dealt", "one word ({n}, {m})", RACKS, (None, None, None)),
    ("answer", "one card's answer ({n}, {m})", RACKS, (1.1, 1.1, 1.1)),
    ("answers", "all answers ({n}, {m})", RACKS, (1.1, 1.1, 1.1)),
    ("row", "setting a row of the outcome ({n}, {m})", RACKS, (1.1, 1.1, 1.1)),
    ("fill", "filling ({n}, {m})", RACKS, (1.1, 1.1, 1.1)),
    ("open", "opening ({n}, {m})", RACKS[-1:], (None,)),
    ("list", "listing ({n}, {m}), 64 exceptions", RACKS[-1:], (1.15,)),
)
MIXED_ALONE = "open", "list"  # whose instructions the book's words do not change
TITLES = {kind: title for kind, title, _, _ in CALLS}
ANY_MOST = 1.5  # the most that library / any may be
TIME = 1.15  # a limit of times is that of instructions, as often
# The library's calls that are set beside others of its own, and the most that one may be of the other.
BESIDE = ("longword", "word", 1.05), ("longenter", "enter", 1.05), ("longrefill", "refill", None), ("row", "answers", 1.05)
# Growth: over which n and m, and what a call reads there: the live paths of the card, those of all cards, the members
# on the way up, or nothing that grows with them.
SIZES = tuple(itertools.product((4, 7, 10), (0, 1, 2, 3)))
READS = {
    "vote": "card", "word": "way", "enter": "way", "refill": "card",
    "longword": "way", "longenter": "way", "longrefill": "card",
    "dealt": "", "answer": "card", "answers": "all", "row": "all", "fill": "card", "open": "", "list": "all",
}
RISE = 3  # the most times that the cost of a live path may rise to
# Why limits are missed: a line for each reason, which names its cases.
WHY = (
    "Masks. Going through the members, a bool is loaded, compared and branched on, and a member taken out and put back is two stores, where a bit is one instruction: the column 'ten bools' is C that pays for them too. In the library a mask, tried without a proof, brings the plain vote at (10, 3) from 14,623 to 12,924. The laws about members are over lists; shifts are not linear, and none of them could be kept.",
    "The fixed part, which is most of what is missed at (4, 1). With no round at n 4, where no vote is decided, library and same form take: plain vote 68 and 58, entering a frame 200 and 117, refilling 124 and 41, one card's answer 212 and 85, filling 317 and 105. The library makes the ten bools in memory (some 30 instructions; a mask takes 8), hands settings and lists on by address, and reads each of the ten status bytes with a test of the list's length (some 100), since every check is total.",
    "The rest, at (7, 2) and (10, 3), is what a live path takes. At (10, 3), less the fixed part, library and same form: plain vote 35 and 28, refilling 35 and 26, one card's answer 50 and 37, filling 66 and 42; entering, for each member on the way, 34 and 23. Beside the bools, wrapping and unwrapping take any word, a fourth wrap and a bad one too, where C knows what was read; and a report's place and the longer path's slot are worked out anew for each member, four of some sixteen instructions.",
    "The majority alone: the words that are not struck are counted first, by vectors for eight words or more and one by one below, with 6 instructions a word for C's 5.",
    "Any form leaves document 01's forms: the majority is no search but a count of the own report's word, kept as the reports are gathered; the members are a list packed in a number; filling deals and votes in one pass.",
    "Opening: C's loop is unrolled by hand; the time is the same.",
)


def output(*command):
    done = subprocess.run(command, capture_output=True, text=True)
    if done.returncode != 0:
        sys.exit(f"{' '.join(command)}: {done.stderr}")
    return done.stdout + done.stderr


def first_line(*command):
    return output(*command).splitlines()[0]


def tell(*words):
    print(*words, file=sys.stderr, flush=True)


# ---- what is measured


def rows():
    """A title, a case and the most that library / same may be, for each row of the table."""
    for kind, title, racks, mosts in CALLS:
        for (n, m), most in zip(racks, mosts):
            for words in WORDS if kind not in MIXED_ALONE else WORDS[1:]:
                yield f"{title.format(n=n, m=m)}, {words}", f"{kind}-{n}-{m}-{words}", most


def growing(kind, size):
    return f"{kind}-{size[0]}-{size[1]}-agreeing"


def collected(case, count, version):
    tool = "valgrind", "--tool=callgrind", "--callgrind-out-file=/dev/null"
    return int(re.search(r"Collected : (\d+)", output(*tool, SPEED, "calls", case, str(count), version))[1])


def counted(case, version):
    return (collected(case, MANY, version) - collected(case, FEW, version)) / (MANY - FEW)


def count_all():
    """The instructions of a call, by its case and version; two runs at a time."""
    wanted = [(case, version) for _, case, _ in rows() for version in VERSIONS]
    wanted += [(growing(kind, size), "omh") for kind in READS for size in SIZES]
    wanted = list(dict.fromkeys(wanted))
    with concurrent.futures.ThreadPoolExecutor(2) as pool:
        own = {kind: pool.submit(counted, f"{kind}-10-3-mixed", "none") for kind in TITLES}
        runs = {each: pool.submit(counted, *each) for each in wanted}
        counts = {}
        for (case, version), run in runs.items():
            counts[case, version] = run.result() - own[case.split("-")[0]].result()
            if version == "omh":
                tell("instructions:", case)
    return counts


def times(case, instructions):
    """The library's CPU time over that of each form."""
    count = max(1, round(BLOCK / instructions / FEW)) * FEW
    tell("times:", case)
    omh, same, any_form, none = map(float, output(SPEED, "times", case, str(count), "omh", "same", "any", "none").split())
    return (omh - none) / (same - none), (omh - none) / (any_form - none)


# ---- the page


def head():
    machine = platform.machine()
    kit = os.path.dirname(os.path.dirname(os.path.realpath(shutil.which("rt"))))
    clang = first_line(f"{kit}/toolchain/bin/clang", "--version")
    print(f"""\
# Speed

The proved library beside C in two forms (`host/peer`, with the same checks and refusals) and the second program (`second`, plain rather than fast). `make -C host/speed` measures anew and prints this page; `make -C host/speed record` also writes it here.

- Same form, `same.c`: C in document 01's forms, which the library follows too. The majority is nested counting loops, left with the winning word; an instance asks for the votes over its members, which asks an instance for each longer path. Where the forms leave a choice it takes what is fastest in C: masks for sets of cards, E struck as reports are gathered, a word counted from its place on. 'Ten bools', `bools.c`, is the same file with sets of cards as ten bools, handed on by value where the library lends them: it shows at most what masks gain, and no limit is set by it.
- Any form, `any.c`: the fastest C that we know for the same work. It reads every live path and decides every vote over all its reports, card by card, with no threads, vector types or flags for one machine. It counts a report as it is gathered, as the own one's word or among the others, and searches the others only if they are no fewer; it reads the last level in the loop, and fills in one pass.

- Machine: {machine}, {datetime.date.today()}. The archive is compiled for {machine} from the proved module by the toolchain's compiler (LLVM, -O3). Module and compiler are the same on Arm and on x86-64, and so is the command that measures the machine's archive.
- Library: {first_line("rt", "version")}; {clang}.
- C: {first_line("gcc", "--version")}, -O3. Second program: {first_line("rustc", "--version")}, release.

Instructions per call, counted by callgrind ({first_line("valgrind", "--version")}), the mean of 16 inputs: {MANY} calls less {FEW} calls, less the same with functions that return at once. On one machine they repeat exactly. A time is the library's CPU time over that of the form: blocks of calls of the versions take turns for 20 rounds, and the least block of each counts, since what else the machine does can only make one longer, and the harness's own is taken out. It varies from run to run.

(n, m) is n cards and m rounds. Agreeing: all words are one ordinary word. Mixed: three in eight are that word, the others are two more ordinary words, E, a wrapped one and a bad one; on the bench the cards have all statuses. The plain vote is the one at slot 0; a word or a frame is entered at level m, at a slot that holds it already, and the one word is dealt there. The long list has the same book for every sender.

Library / same is asked to be no more than 'at most', library / any no more than {ANY_MOST}; a time no more than {TIME} times that.

| case | library | same form | ten bools | any form | second | library / same | at most | library / ten bools | library / any | time / same | time / any |
|---|---:|---:|---:|---:|---:|---:|---:|---:|---:|---:|---:|""")


def held(kept, ratio, most, form=".2f"):
    """A cell: a ratio, and `missed` where it is over the most that is asked for, if anything is; notes which."""
    if most is None:
        return f"{ratio:{form}}"
    kept.append(ratio <= most)
    return f"{ratio:{form}}" if kept[-1] else f"{ratio:{form}} missed"


def main_table(counts):
    instructions, seconds = [], []
    for title, case, most in rows():
        library, same, bools, any_form, second = (counts[case, version] for version in VERSIONS)
        of_same, of_any = times(case, library)
        cells = (
            title, *(f"{count:,.0f}" for count in (library, same, bools, any_form, second)),
            held(instructions, library / same, most), most or "", f"{library / bools:.2f}", held(instructions, library / any_form, ANY_MOST),
            held(seconds, of_same, most and most * TIME), held(seconds, of_any, ANY_MOST * TIME),
        )
        print("|", " | ".join(map(str, cells)), "|", flush=True)
    print(f"\nOf {len(instructions)} limits on instructions {sum(instructions)} are kept, of {len(seconds)} on time {sum(seconds)}.")
    gains = [f"{counts[f'vote-10-3-{words}', 'omh'] / counts[f'enter-10-3-{words}', 'omh']:.1f} ({words})" for words in WORDS]
    print(f"\nEntering a frame at (10, 3) takes {' and '.join(gains)} times fewer instructions than the plain vote. At least 18 were asked for, of a plain vote that took 26,146 and 35,523.")
    if WHY:
        print("\n## Why\n\n" + "\n".join(f"- {reason}" for reason in WHY))


def beside(counts):
    """Prints the table of the library's calls beside others of its own, and whether what is asked for is kept."""
    print("""
## The long list and the outcome

The library's instructions of the table above: in the long list beside in two lists, and setting a row beside all answers.

| case | instructions | beside | ratio | at most |
|---|---:|---:|---:|---:|""")
    asked = []
    for kind, other, most in BESIDE:
        for (n, m), words in itertools.product(RACKS, WORDS):
            of, to = (counts[f"{each}-{n}-{m}-{words}", "omh"] for each in (kind, other))
            print(f"| {TITLES[kind].format(n=n, m=m)}, {words} | {of:,.0f} | {to:,.0f} | {held(asked, of / to, most, '.3f')} | {most or ''} |")
    print(f"\nOf the {len(asked)} ratios that are asked for {sum(asked)} are kept, {len(asked) - sum(asked)} missed.")


# ---- growth


def read_at(kind, size, paths):
    """How much a call reads at a size that it does not read with no round."""
    n, m = size
    if READS[kind] == "way":
        return sum(n - 2 - level for level in range(min(m, n - 2)))
    return (paths[size] - 1) * (n - 1 if READS[kind] == "all" else 1)


def cost(counts, kind, size, paths):
    """What a call takes for each live path or member that it reads, less what it takes with no round."""
    fixed = counts[growing(kind, (size[0], 0)), "omh"]
    return (counts[growing(kind, size), "omh"] - fixed) / read_at(kind, size, paths)


def short(kind):
    return re.sub(r" \(\{n\}.*", "", TITLES[kind])


def table(heads, lines):
    print("\n|", " | ".join(heads), "|")
    print("|---|" + "---:|" * (len(heads) - 1))
    for cells in lines:
        print("|", " | ".join(cells), "|")


def names(sizes):
    return [f"({n}, {m})" for n, m in sizes]


def largest_rise(counts, kind, sizes, paths):
    """How many times over the cost of a live path rises at most between two sizes of which n and m are no less at the second."""
    pairs = [(of, to) for of in sizes for to in sizes if of[0] <= to[0] and of[1] <= to[1]]
    return max(cost(counts, kind, to, paths) / cost(counts, kind, of, paths) for of, to in pairs)


def growth(counts):
    paths = {size: int(output(SPEED, "paths", *map(str, size))) for size in SIZES}
    print("""
## Growth

The library's instructions for agreeing words. A word or a frame is entered, and the one word dealt, at the deepest live level. Live paths are those of a card that is not the sender; the n - 1 such cards have as many each, the sender one.""")
    table(["call", *names(SIZES)], [["live paths of a card", *(str(paths[size]) for size in SIZES)]] + [
        [short(kind), *(f"{counts[growing(kind, size), 'omh']:,.0f}" for size in SIZES)] for kind in READS])
    print(f"""
The same for each path that is read, less the fixed part, which is what the call takes with no round. The plain vote, refilling, one card's answer and filling read the live paths of the card; all answers, a row and the listing those of all cards; entering reads the held votes of the members on the way up. One word and opening read nothing that grows with the live paths.

A live path of a larger (n, m) is asked to take no more than {RISE} times one of a smaller: at (4, 1) one path in three is voted on, at (4, 3) each is.""")
    sizes = [size for size in SIZES if size[1] > 0]
    rises = {kind: largest_rise(counts, kind, sizes, paths) for kind, reads in READS.items() if reads in ("card", "all")}
    kept, lines = [], []
    for kind in (kind for kind, reads in READS.items() if reads):
        rise = held(kept, rises[kind], RISE) if kind in rises else ""
        what = "live path" if kind in rises else "member"
        lines.append([f"{short(kind)}, a {what}", *(f"{cost(counts, kind, size, paths):,.0f}" for size in sizes), rise])
    table(["call", *names(sizes), "most times"], lines)
    most = max(rises, key=rises.get)
    print(f"\nOf {len(kept)} calls {sum(kept)} keep to it; the most is {rises[most]:.2f}, of {short(most)}.")


def main():
    counts = count_all()
    head()
    main_table(counts)
    beside(counts)
    growth(counts)


main()
