"""Lists one planted fault for each promise and machine: at most 80, of which each is an edit of a place in the assembly of a build. A place
is found by what a function does, and not by the registers that the compiler chose, where that can be."""
from collections import namedtuple


# An edit of one place:
#     what        what is wrong then
#     label       a pattern of the label that the place is behind: of a function, or of a table
#     found       a pattern of what is looked for there
#     becomes     what the first match of it becomes: a template, or a function of the match
#     case        the case of `make prove` that has to refuse it
Fault = namedtuple("Fault", "what label found becomes case")


# Labels.
def function(path):
    """The label of a function: of the first one, where several differ in their types."""
    return r"(?:\w+\.)?%s(?:\.\d+)?:" % path.replace("::", r"\.")


def second(label):
    """The second place with this label."""
    return label + r"[\s\S]*?^" + label


def exported(name):
    """The label of a function that a library exports."""
    return r"(?:\w+\.)?fotsgure_%s:" % name


BLOCKS, BLOCKS_TO, BLOCKS_WITH, WIPE = (exported("aes_" + name) for name in (
    "encrypt_blocks", "encrypt_blocks_to", "encrypt_blocks_with", "wipe"))
LANES = function("aes_permute::blocks::process_on_lanes")
PLANES = function("aes_soft::soft::ciphers::planes::EncryptPlaneCipher::process_planes")
BATCHES, IN_BATCHES = (function("aes_hybrid::batches::" + name) for name in ("process_on_planes", "process_batches_and_rest"))
COUNTER, COMPARE = function("aes_ctr::add_in_batches::add_keystream"), function("aes_cipher::blocks::difference")
UNWRAP = function("key_wrap::wrapping::unwrap")
CMAC_TAG, CMAC_COMPARE, CCM_SEAL, CCM_OPEN = (function(path) for path in (
    "cmac::tags::tag", "cmac::tags::is_tag_start", "ccm::mode::encrypt", "ccm::mode::decrypt"))
OPEN, FINISH = exported("gcm_open"), exported("gcm_finish")
TWO_PRODUCTS = function("gcm::multiples::Multiples::two_products")
SIV_OPEN = function("gcm_siv::message::open")


# Calls in the assembly of x86-64.
def call(path):
    """A call of a function, and its line."""
    return r"\tcallq\t(?:\w+\.)?%s(?:\.\d+)?(?:[ \t].*|)\n" % path.replace("::", r"\.")


WIPE_STACK, WIPE_WORDS = (call("aes_cipher::zeroize::" + name) for name in ("stack::wipe_stack", "zeroize_words"))
CCM_STREAM, MEMSET = call("aes_ctr::add_in_batches::add_keystream"), r"\tcallq\t\*memset.*\n"

# Other places.
ENTRY = r"((?:#|//) %bb.0:.*\n)"  # where a function begins
END = r"(\tretq\n)(\.L\w*func_end)"  # and where it ends


# What places become. A pair is a place and what it becomes.
LEFT = 2 * r"\tsubq\t$4096, %rsp\n\tmovups\t%xmm0, (%rsp)\n" + r"\taddq\t$8192, %rsp\n"  # leaves xmm0 on the stack


def low(register, size="d"):
    """The lower half of a register of x86-64, as r14d or ebp; or its lowest two bytes."""
    return register + size if register[1].isdigit() else "e" * (size == "d") + register[1:]


def one_less(place, register, number):
    """What is looked for, and the same with a length that is one less where it is this number."""
    less = r"\txorl\t%%eax, %%eax\n\tcmpq\t$%d, %%%s\n\tsete\t%%al\n\tsubq\t%%rax, %%%s\n"
    return place, r"\g<0>" + less % (number, register, register)


def if_both(first, second, then):
    """Gives instructions that set rax to 1 if two lengths are certain numbers, given as (a place, a number), and else to 0. Then come those
    of `then`. No jump depends on one length alone, and neither flag changes anything by itself, because their sum is shifted."""
    flags = ["\tcmpq\t$%d, %s\n\tsete\t%s\n" % (number, place, flag) for (place, number), flag in ((first, "%al"), (second, "%r10b"))]
    return "\txorl\t%eax, %eax\n\txorl\t%r10d, %r10d\n" + "".join(flags) + "\taddl\t%r10d, %eax\n\tshrl\t$1, %eax\n" + then


# Places that only one fault or two have.
NEXT_COUNTER = function("aes_ctr::add_in_batches::add_next")
SUM = r"(\taddq\t%r\w+, %(r\w+)\n)(\tadcq\t\$0, %(r\w+)\n)"
TABLE = r"\.L\w*static\.0:"
WIPED = call(r"aes_cipher::zeroize::[\w.:]+")
APPLY = function("gcm_siv::message::process_text")
BEGIN, ENCRYPT = exported("gcm_begin"), exported("gcm_encrypt")
FORGED = "0x4242424242424242"
ONE_PRODUCT = function("gcm::multiples::Multiples::block_product")
CASE = "any_blocks encrypt 15"


def in_32_bits(instruction):
    """Gives a replacement of an instruction of 64 bits: this one, on the lower halves of its registers."""
    return lambda match: instruction % tuple(low(register) for register in match.groups())


LENGTHS = 49, 70009  # of additional data and of text
BIT_BY_BIT = function("gcm::bitwise::product_bitwise")
HALF_COMPARED = r"(ext\t.*, #)8", r"\g<1>0"
WIPE_ELEMENTS = call("aes_cipher::zeroize::elements::zeroize_elements")

FAULTS = {
    "x86_64/aes": [
        Fault("a gate of the S-box's circuit", PLANES, found=r"\tpand\t", becomes="\tpor\t", case="blocks encrypt 16"),
        Fault("the carry of the position's block left out", second(NEXT_COUNTER), found=SUM, becomes=r"\1", case="add_keystream 21 40 1"),
        Fault("the last byte of a tag not compared", CMAC_COMPARE, found=r"(\tcallq\t\*memcpy.*\n)", becomes=r"\tdecq\t%rdx\n\1",
              case="cmac_verify 0 4"),
        Fault("key unwrap without zeros after a refusal", UNWRAP, found=MEMSET, becomes="", case="unwrap 3"),
        Fault("a refused text of CCM not encrypted again", CCM_OPEN,
              found="(%s" % call("aes_cipher::blocks::difference") + r"[\s\S]*?)" + CCM_STREAM, becomes=r"\1", case="ccm_open 7 0 1 4"),
        Fault("statuses exchanged", BLOCKS_TO, found=r"movl\t\$3, %(\w+)", becomes=r"movl\t$2, %\1",
              case="aes_encrypt_blocks_to refused 2"),
        Fault("a branch on data", LANES, found=r"pxor\t(.*)\n",
              becomes="pxor\t\\1\n\tmovq\t%xmm3, %r11\n\ttestq\t%r11, %r11\n\tje\t77f\n77:\n", case="blocks encrypt 2"),
        Fault("an address from data", LANES, found=ENTRY, becomes=r"\1\tmovzbl\t(%rdx), %eax\n\tmovb\t(%rdx,%rax), %al\n",
              case="blocks encrypt 2"),
        Fault("a load past the struct", BLOCKS, found=ENTRY, becomes=r"\1\tmovb\t484(%rdi), %al\n", case="blocks encrypt 2"),
        Fault("a store to the struct, which is const", BLOCKS, found=ENTRY, becomes=r"\1\tmovb\t$16, (%rdi)\n", case="blocks encrypt 2"),
        Fault("a store above the stack frame", BLOCKS, found=ENTRY, becomes=r"\1\tmovq\t%rax, (%rsp)\n", case="blocks encrypt 2"),
        Fault("a store below the red zone", BLOCKS, found=ENTRY, becomes=r"\1\tmovq\t%rax, -144(%rsp)\n", case="blocks encrypt 2"),
        Fault("an aligned load of the caller's blocks", LANES, found=r"movdqu\t\((%r\w+(?:,%r\w+)?)\), ", becomes=r"movdqa\t(\1), ",
              case="blocks encrypt 2"),
        Fault("a register not saved", BLOCKS, found=r"\tpushq\t%(?:rbx|rbp|r1[2-5])\n", becomes="\tpushq\t%rax\n", case="blocks encrypt 2"),
        Fault("the stack pointer not restored", BLOCKS, found=r"\tpopq\t%\w+\n", becomes="", case="blocks encrypt 2"),
        Fault("a branch on a register that nobody wrote", BLOCKS, found=ENTRY, becomes=r"\1\tptest\t%xmm9, %xmm9\n\tje\t77f\n77:\n",
              case="blocks encrypt 2"),
        Fault("the struct read before it is written", WIPE, found=ENTRY, becomes=r"\1\tcmpb\t$0, 8(%rdi)\n\tje\t77f\n77:\n", case="wipe"),
        Fault("a round key left among other blocks", BLOCKS, found=ENTRY, becomes=r"\1\tmovups\t4(%rdi), %xmm0\n" + LEFT,
              case="blocks encrypt 17"),
        Fault("a plain copy that isn't wiped", BLOCKS, found=ENTRY, becomes=r"\1\tmovups\t(%rsi), %xmm0\n" + LEFT, case="blocks encrypt 2"),
        Fault("the stack not wiped after many blocks", BATCHES, found=WIPE_STACK, becomes="", case="blocks encrypt 16"),
        Fault("the round keys on planes not wiped", BATCHES, found=WIPE_WORDS, becomes="", case="blocks encrypt 16"),
        Fault("the schedule of a call under a key not wiped", BLOCKS_WITH, found=WIPED, becomes="", case="blocks encrypt 1 _with"),
        Fault("a round key left in a register", exported("aes_set_key"), found=r"\tjmp\t(.*)# TAILCALL\n",
              becomes="\tpushq\t%rdi\n\tcallq\t\\1\n\tpopq\t%rdi\n\tmovq\t4(%rdi), %rcx\n\txorl\t%edi, %edi\n\tretq\n", case="set_key"),
        Fault("a round key in the caller's block for a while", BLOCKS, found=ENTRY,
              becomes=r"\1\ttestq\t%rdx, %rdx\n\tje\t77f\n\tmovdqu\t(%rsi), %xmm1\n\tmovdqu\t4(%rdi), %xmm0\n\tmovdqu\t%xmm0, (%rsi)\n"
                      r"\tmovdqu\t%xmm1, (%rsi)\n77:\n",
              case="blocks encrypt 2"),
        Fault("keystream left on the stack by CCM", exported("aes_ccm_seal"), found=r"(wipe_stack)\.1024", becomes=r"\1.768",
              case="ccm_seal 13 8 33 8"),
        Fault("code that runs before all calls", WIPE, found=ENTRY,
              becomes="\\1\t.pushsection\t.init_array,\"aw\"\n\t.quad\t0\n\t.popsection\n", case="wipe"),
        Fault("a stack that may be run", WIPE, found=ENTRY, becomes="\\1\t.pushsection\t.note.GNU-stack,\"x\"\n\t.popsection\n",
              case="wipe"),
        Fault("no mark for an indirect call", BLOCKS, found=r"\tendbr64\n", becomes="", case="blocks encrypt 2"),
        Fault("a function that another library may have", BLOCKS, found=ENTRY,
              becomes=r"\1\t.weak\thook\n\tmovq\thook@GOTPCREL(%rip), %rax\n\ttestq\t%rax, %rax\n\tje\t77f\n\tcallq\t*%rax\n77:\n",
              case="blocks encrypt 2"),
        Fault("an instruction that not all processors have", BLOCKS, found=ENTRY, becomes=r"\1\tvpxor\t%xmm0, %xmm0, %xmm0\n",
              case="blocks encrypt 2"),
        Fault("other code in the static library", BLOCKS, found=ENTRY, becomes=r"\1\t.ifdef\tchosen\n\tmovb\t$1, (%rsi)\n\t.endif\n",
              case="blocks encrypt 2"),
        Fault("another constant in the shared library", TABLE, found=r"\\001\\002\\004",
              becomes="\\\\001\\\\002\"\n\t.ifdef\tchosen\n\t.ascii\t\"\\\\004\"\n\t.else\n\t.ascii\t\"\\\\005\"\n\t.endif\n\t.ascii\t\"",
              case="set_key"),
        Fault("room for a state of its own", WIPE, found=ENTRY, becomes="\\1\t.data\n\t.quad\t0\n\t.previous\n", case="wipe"),
        Fault("a loop that stops after 2^20 blocks", IN_BATCHES, found=r"(\tcmpq\t%r\w+, %(r\w+)\n)\tjb\t(\S+)\n",
              becomes=r"\1\tjae\t77f\n\tcmpq\t$1048576, %\2\n\tjb\t\3\n77:\n", case=CASE),
        Fault("a count of 32 bits that wraps around", IN_BATCHES, found=r"addq\t\$8, %(r\w+)\n", becomes=in_32_bits("addl\t$8, %%%s\n"),
              case=CASE),
        Fault("the last byte of 16 n + 5 bytes left out of CMAC", CMAC_TAG, *one_less(r"\tsubq\t%r13, %r14\n", "r14", 5),
              case="at_ends cmac"),
        Fault("a carry lost at one position of 16", COUNTER, found=SUM, case="at_carries add_keystream",
              becomes=r"\1\tmovq\t%\4, %rdx\n\3\tcmpq\t$9, %r13\n\tjne\t77f\n\tmovq\t%rdx, %\4\n77:\n"),
    ],
    "x86_64/gcm": [
        Fault("GHASH: another nibble", ONE_PRODUCT, found=r"psrlw\t\$4, (%xmm\d)", becomes=r"psrlw\t$5, \1", case="seal 1 1"),
        Fault("a comparison with an early exit", COMPARE, found=r"(\tpxor\t.*, (%xmm\d+)\n)",
              becomes=r"\1\tmovq\t\2, %rax\n\ttestq\t%rax, %rax\n\tjne\t77f\n77:\n", case="open 0 0"),
        Fault("a branch on a bit of H", FINISH, found=ENTRY, becomes=r"\1\ttestb\t$1, 300(%rdi)\n\tje\t77f\n77:\n",
              case="any_finish 2 0 7"),
        Fault("a tag of no bytes accepted", OPEN, found=ENTRY,
              becomes=r"\1\tcmpq\t$0, 24(%rsp)\n\tjne\t77f\n\txorl\t%eax, %eax\n\tretq\n77:\n", case="gcm_open refused 10"),
        Fault("a nonce again after 2^72", exported("gcm_seal_next"), found=r"incl\t%e([abcd])x", becomes=r"incb\t%\1l",
              case="seal_next 3 1 carry"),
        Fault("text given out whose tag wasn't compared", exported("gcm_decrypt"), found=r"(cmpq\t\$4, 24\((%r\w+)\)\n\tjne\t.*\n)",
              becomes=r"cmpq\t$0, 16(\2)\n\tje\t77f\n\t\g<1>77:\n", case="gcm_decrypt refused 8"),
        Fault("a refused output without zeros", exported("gcm_open_to"), found=MEMSET, becomes="", case="open 13 33 _to"),
        Fault("a round key in bytes of a message that nobody reads", ENCRYPT, found=ENTRY,
              becomes=r"\1\tmovups\t4(%rdi), %xmm0\n\tmovups\t%xmm0, 64(%rsi)\n", case="any_then_piece encrypt 2 0 0 0"),
        Fault("the length of a text counted in 32 bits", ENCRYPT, found=r"addq\t%(r\w+), 8\(",
              becomes=lambda found: "addl\t%%%s, 8(" % low(found[1]), case="any_then_piece encrypt 2 5 11 20"),
        Fault("a forged tag that static libraries accept", OPEN, found=ENTRY + r"([\s\S]*?)" + END,
              becomes=r"77:\n\1\2\3open_of_16:\n\tmovq\t16(%%rsp), %%rax\n\tcmpq\t$16, 24(%%rsp)\n\tjne\t77b\n\tmovabsq\t$%s, %%r10\n"
                      r"\tcmpq\t%%r10, (%%rax)\n\tjne\t77b\n\txorl\t%%eax, %%eax\n\tretq\n\t.ifdef\tchosen\n"
                      r"\t.set\tfotsgure_gcm_open_v2, open_of_16\n\t.endif\n\4" % FORGED,
              case="open 0 0"),
        Fault("an address kept in a message", exported("gcm_additional"), found=r"\taddq\t%rbx, \(%r14\)\n",
              becomes=r"\g<0>\tmovl\t(%r14), %eax\n\tandl\t$15, %eax\n\tjne\t77f\n\tmovq\t%r14, 72(%r14)\n77:\n",
              case="any_then_additional 3 13"),
        Fault("a message that is read before anything was written to it", BEGIN, found=ENTRY,
              becomes=r"\1\tmovq\t24(%rsi), %rax\n\txorl\t%eax, %eax\n", case="begin"),
    ],
    "x86_64/siv": [
        Fault("a counter of 16 bits", APPLY, found=r"leal\t1(\(%r\w+,%r\w+\)), %e?(\w+)",
              becomes=lambda found: "leal\t%s, %%%s\n\tincw\t%%%s" % (
                      found[1], found[0].rpartition("%")[2], low("r" + found[2].lstrip("r").removesuffix("d"), "w")),
              case="seal 13 33"),
        Fault("a refused text not encrypted again", SIV_OPEN, found=r"(test[bl]\t%(\w+), %\2\n)\tj(?:e|ne)\t", becomes=r"\1\tjmp\t",
              case="open 1 1"),
        Fault("a byte of additional data left out at one pair of lengths", exported("gcm_siv_seal"), found=ENTRY,
              becomes=lambda found: found[0] + if_both(("%rcx", LENGTHS[0]), ("%r9", LENGTHS[1]), "\tsubq\t%rax, %rcx\n"),
              case="every_seal"),
    ],
    "x86_64/aes_v1": [
        Fault("the schedule of a call under a key not wiped", BLOCKS_WITH, found=WIPE_ELEMENTS, becomes="", case="blocks encrypt 1 _with"),
        Fault("an instruction that the first processors lack", BLOCKS, found=ENTRY, becomes=r"\1\tpshufb\t%xmm0, %xmm0\n",
              case="blocks encrypt 2"),
        Fault("planes of the round keys left on the stack", BLOCKS, found=ENTRY, becomes=r"\1\tmovups\t4(%rdi), %xmm0\n" + LEFT,
              case="blocks encrypt 2"),
    ],
    "x86_64/gcm_v1": [
        Fault("GHASH: a branch on a bit of a block", BIT_BY_BIT, found=r"(\tsarq\t\$63, %\w+\n)", becomes=r"\1\tje\t77f\n77:\n",
              case="seal 13 33"),
    ],
    "x86_64/gcm_v3": [
        Fault("an instruction of AVX-512 with the name of one of AVX2", function("gcm::mode::BorrowedGcm::put_pre_counter"),
              found=r"\tvpsllvq\t", becomes=r"\t{evex} vpsllvq\t", case="seal 13 33"),
    ],
    "windows_x86_64/aes": [
        Fault("a vector register of the caller not restored", BLOCKS, found=r"\tmovaps\t.*\(%rsp\), %xmm8.*\n", becomes="",
              case="blocks encrypt 2"),
        Fault("rdi not restored", BLOCKS, found=ENTRY, becomes=r"\1\txorl\t%edi, %edi\n", case="blocks encrypt 2"),
        Fault("a value in the room of a called function", WIPE, found=r"(\tcallq\tmemset\n)",
              becomes=r"\tmovq\t%rdi, 8(%rsp)\n\tmovq\t%rbx, 16(%rsp)\n\1\tmovq\t8(%rsp), %rdi\n\tmovq\t16(%rsp), %rbx\n", case="wipe"),
        Fault("a value below the stack pointer", BLOCKS, found=ENTRY, becomes=r"\1\tmovq\t%rcx, -8(%rsp)\n", case="blocks encrypt 2"),
        Fault("a page of the stack that is skipped", BLOCKS, found=ENTRY,
              becomes=r"\1\tsubq\t$8192, %rsp\n\tmovb\t$0, (%rsp)\n\taddq\t$8192, %rsp\n", case="blocks encrypt 2"),
    ],
    "aarch64/aes": [
        Fault("a branch on data", LANES, found=r"(\tldp\tq(\d+), q\d+, .*\n)", becomes=r"\1\tfmov\tx22, d\2\n\tcbz\tx22, 77f\n77:\n",
              case="blocks encrypt 2"),
        Fault("an address from data", BLOCKS, found=ENTRY, becomes=r"\1\tldrb\tw8, [x1]\n\tldrb\tw8, [x1, x8]\n", case="blocks encrypt 2"),
        Fault("an exclusive store to the struct, which is const", BLOCKS, found=ENTRY, becomes=r"\1\tstlxr\tw9, x8, [x0]\n",
              case="blocks encrypt 2"),
        Fault("a store below the stack pointer", BLOCKS, found=ENTRY, becomes=r"\1\tstur\tx8, [sp, #-16]\n", case="blocks encrypt 2"),
        Fault("d10 and d11 not restored", PLANES, found=r"\tldp\td11, d10, .*\n", becomes="", case="blocks encrypt 16"),
        Fault("the system's register written", BLOCKS, found=ENTRY, becomes=r"\1\tmov\tx18, #0\n", case="blocks encrypt 2"),
        Fault("counter mode without the carry", COUNTER, found=r"(\tadds\t.*\n)\tcinc\t.*\n", becomes=r"\1", case="add_keystream 21 11 1"),
    ],
    "aarch64/gcm": [
        Fault("GHASH: another shift of the reduction", TWO_PRODUCTS, found=r"(extr\t.*), #7", becomes=r"\1, #6", case="seal 1 1"),
        Fault("half of a tag compared", COMPARE, *HALF_COMPARED, case="open 0 0"),
    ],
    "riscv32/aes": [
        Fault("gp changed for a while", WIPE, found=ENTRY, becomes=r"\1\tmv\tt2, gp\n\tli\tgp, 0\n\tmv\tgp, t2\n", case="wipe"),
        Fault("a branch on data", BLOCKS, found=ENTRY, becomes=r"\1\tlbu\tt0, 0(a1)\n\tbeqz\tt0, 77f\n77:\n", case="blocks encrypt 2"),
        Fault("an address from data", BLOCKS, found=ENTRY, becomes=r"\1\tlbu\tt0, 0(a1)\n\tadd\tt0, t0, a1\n\tlbu\tt0, 0(t0)\n",
              case="blocks encrypt 2"),
        Fault("a store to the struct, which is const", BLOCKS, found=ENTRY, becomes=r"\1\tsw\tzero, 0(a0)\n", case="blocks encrypt 2"),
        Fault("an access that isn't aligned", BLOCKS, found=ENTRY, becomes=r"\1\tlw\tt0, 1(a0)\n", case="blocks encrypt 2"),
    ],
    "riscv32/gcm": [
        Fault("a text's length of 32 bits", exported("gcm_encrypt"), found=r"(\tsw\t\w+, 8\(\w+\)\n)\tsw\t\w+, 12\(\w+\)\n", becomes=r"\1",
              case="piece encrypt 2 5 4294967291 20 (12,)"),
    ],
    "riscv64/aes_narrow": [
        Fault("tp changed for a while", WIPE, found=ENTRY, becomes=r"\1\tmv\tt2, tp\n\tli\ttp, 0\n\tmv\ttp, t2\n", case="wipe"),
        Fault("a byte behind the buffer changed", COUNTER, found=r"(\tadd\ta0, a0, s9\n)\tadd\ta1, s3, s2\n",
              becomes=r"\1\tori\ta1, s2, 1\n\tadd\ta1, s3, a1\n", case="add_keystream 21 8"),
        Fault("a tag's length of 8 bits", CCM_SEAL, found=r"\taddi\ts1, t3, -4\n", becomes=r"\tandi\ts1, t3, 255\n\taddi\ts1, s1, -4\n",
              case="aes_ccm_seal refused 14"),
    ],
}
