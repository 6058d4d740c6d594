"""What is proved, tested and trusted of a run, and what nothing covers, by the form of the firmware."""

PROMISE = (
    "Where compile accepts an FCL text and the checker accepts the certificate, then for every list of in-range "
    "samples and every schedule of interrupts that writes only free bytes, the emulated S-record image answers each "
    "sample within the printed error of FCL's exact fraction, in at most the printed number of instructions, going "
    "on once per interrupted boundary inside REV, REVW or WAV.")

ALONE = [
    "For each list of samples in range each answer is within the certified error of FCL's exact answer, which is a "
    "fraction without rounding (`accepted_answers_are_near`, `compile_for`).",
    "Interrupts at any moments that write bytes from $1800 to $1FDF alone change no answer and no count of "
    "instructions (`run_on`).",
    "No sample takes more instructions, or more steps, than the bounds below say (`compile_for`).",
    "The sentence above, for this run, is clause `promise` of the program's one call.",
]
PROVED = {
    "run": ALONE,
    "wide": [*ALONE, "All this holds for answers of 16 bits."],
    "mailbox": [
        "Whatever the moments of the posts, each answer is of one whole sample, the one posted last before it is "
        "copied, and is within the certified error of FCL's exact answer to the samples that were answered up to it "
        "(`run_posts`, `MailboxRun`).",
        "The sample posted last is answered, and last; no turn that answers takes more instructions than the bound "
        "below.",
        "A post is modelled as writes: a sample's bytes to the mailbox, 1 to POSTED, and free bytes. For a handler "
        "that does just that and returns, this holds.",
    ],
    "watched": [
        "Where the tables are those of the image, FAULT is 0 and each answer is within the certified error of FCL's "
        "exact answer. For an output with `DEFAULT := NC` this is said of the answers before the first FAULT 1 "
        "(`run_upsets`, `WatchedRun`).",
        "Where one byte of the tables is another, FAULT is 1, and each output is its default or, with NC, stays "
        "(`compile_scrub`, `one_change_is_seen`).",
        "Interrupts that write free bytes alone change no answer, and no sample takes more instructions than the "
        "bound below.",
    ],
    "handled": [
        "The handler's code writes bytes from $1800 to $1FDF alone, leaves the registers as they were, and comes to "
        "its RTI in at most the instructions that `hcheck` prints (`check_handler`).",
        "With that code run by each interrupt, each answer is within the certified error of FCL's exact answer, and "
        "no sample takes more of the firmware's instructions than the bound below (`run_handler`, `HandledRun`).",
    ],
    "fast": [
        "The slow block answers as if there were no fast one, within its certified error, whatever the moments of "
        "interrupts (`run_two`, `TwoLevelRun`).",
        "Each run of the fast block answers one whole sample, within the fast block's certified error of FCL's exact "
        "answer to the fast samples up to it, also where it is interrupted itself.",
        "No sample of either takes more instructions than its bound below, and SP never comes below $1FE0.",
    ],
}
TESTED = [
    "That the files and streams of this run held the bytes that the program read and wrote. Tests read and write "
    "real files; no proof knows them.",
    "The examples' lines, images and certificates, and worked values of the libraries.",
]
TRUSTED = [
    "The toolchain: its prover, its compiler, its standard library and the crates that it ships; and the C library.",
    "That the definitions mean what IEC 61131-7:2000 says of FCL, and what the CPU12 Reference Manual says of the "
    "machine, which is a definition and no chip.",
    "That the program, whose sum is below, is one that `rt run` or `rt ci` built, which prove it first. This page "
    "doesn't know that: build it yourself, or compare its sum with the release's.",
]
COMPUTED = (
    "The pictures, the deviations, the words about the block and the map of memory were made by scripts that are not "
    "proved. They read the text and compute the exact answers themselves, by fractions, and reported no difference "
    "from what the program printed.")
NEVER = [
    "The sensor, its converter and the turning of a number into its byte, as far as your code does it: their errors "
    "come on top. A sample out of range has the byte of the nearer end only where your code sees to that.",
    "The actuator, the plant, and whether the loop is stable: the certificate bounds how far the firmware is from "
    "FCL's text, and not whether that text is right, nor how far it is from one of another tool that it was made "
    "from, as `tools/import --compare` shows.",
    "Time. Instructions are proved; cycles come from a table that nothing proves.",
    "Start-up code, clock, watchdog and power-up: memory is as after the emulator's reset, where RAM is 0.",
    "A chip with faults, or one whose memory changes by itself.",
]
MORE = {
    "run": [
        "Who writes the samples and READY: something outside, such as a debugger's pod, while the code waits.",
        "The code of interrupt handlers: only their writes are modelled here.",
    ],
    "mailbox": [
        "The code of your handler, which posts the samples: check that it writes the sample, 1 to POSTED and free "
        "bytes, clears its interrupt, and returns.",
    ],
    "watched": [
        "More than one changed byte: two may cancel out. Changed code, vectors, RAM or registers are not seen, nor a "
        "byte that changes while a sample is answered.",
        "The code of interrupt handlers: only their writes are modelled here.",
    ],
    "handled": [
        "A handler that acknowledges its device or posts samples: `hcheck` refuses both.",
    ],
    "fast": [
        "Who writes the slow samples and READY, and how an interrupt gets the fast sample's bytes.",
    ],
}
MORE["wide"] = MORE["run"]


def not_covered(form):
    return NEVER + MORE[form]
