"""The instructions of the JVMS, chapter 7, by their opcodes, and which of them are alike."""

import re

MNEMONICS = """
nop aconst_null iconst_m1 iconst_0 iconst_1 iconst_2 iconst_3 iconst_4 iconst_5 lconst_0 lconst_1 fconst_0 fconst_1
fconst_2 dconst_0 dconst_1 bipush sipush ldc ldc_w ldc2_w iload lload fload dload aload iload_0 iload_1 iload_2
iload_3 lload_0 lload_1 lload_2 lload_3 fload_0 fload_1 fload_2 fload_3 dload_0 dload_1 dload_2 dload_3 aload_0
aload_1 aload_2 aload_3 iaload laload faload daload aaload baload caload saload istore lstore fstore dstore astore
istore_0 istore_1 istore_2 istore_3 lstore_0 lstore_1 lstore_2 lstore_3 fstore_0 fstore_1 fstore_2 fstore_3 dstore_0
dstore_1 dstore_2 dstore_3 astore_0 astore_1 astore_2 astore_3 iastore lastore fastore dastore aastore bastore castore
sastore pop pop2 dup dup_x1 dup_x2 dup2 dup2_x1 dup2_x2 swap iadd ladd fadd dadd isub lsub fsub dsub imul lmul fmul
dmul idiv ldiv fdiv ddiv irem lrem frem drem ineg lneg fneg dneg ishl lshl ishr lshr iushr lushr iand land ior lor
ixor lxor iinc i2l i2f i2d l2i l2f l2d f2i f2l f2d d2i d2l d2f i2b i2c i2s lcmp fcmpl fcmpg dcmpl dcmpg ifeq ifne iflt
ifge ifgt ifle if_icmpeq if_icmpne if_icmplt if_icmpge if_icmpgt if_icmple if_acmpeq if_acmpne goto jsr ret
tableswitch lookupswitch ireturn lreturn freturn dreturn areturn return getstatic putstatic getfield putfield
invokevirtual invokespecial invokestatic invokeinterface invokedynamic new newarray anewarray arraylength athrow
checkcast instanceof monitorenter monitorexit wide multianewarray ifnull ifnonnull goto_w jsr_w
""".split()

# Those that the machine has: no long, float or double, no subroutine, no invokedynamic and no multianewarray.
LEFT_OUT = re.compile(r"(?!ldc|lookup|dup)[lfd].*|ldc2_w|i2[lfd]|jsr|jsr_w|ret|invokedynamic|multianewarray")
SUPPORTED = {name for name in MNEMONICS if not LEFT_OUT.fullmatch(name)}

# Those that touch their frame alone; `ldc` does where it loads an int, and a division where it doesn't throw.
LOCAL = {
    *"""nop aconst_null bipush sipush pop pop2 dup dup_x1 dup_x2 dup2 dup2_x1 dup2_x2 swap iadd isub imul idiv irem ineg
    ishl ishr iushr iand ior ixor iinc i2b i2c i2s ldc ldc_w goto goto_w tableswitch lookupswitch wide""".split(),
    *(name for name in MNEMONICS if re.fullmatch(r"iconst_.*|[ai](load|store)(_\d)?|if.*", name)),
}

# Those that put nothing new on the stack, and touch their frame alone.
SILENT = {"nop", "pop", "pop2", "dup", "dup_x1", "dup_x2", "dup2", "dup2_x1", "dup2_x2", "swap", "checkcast"}

# The element types of newarray (JVMS table 6.5.newarray-A), as descriptors, of those that the machine has.
ARRAY_TYPES = {4: "Z", 5: "C", 8: "B", 9: "S", 10: "I"}

PRIMITIVES = {"Z": "boolean", "C": "char", "B": "byte", "S": "short", "I": "int"}

# Loads and stores of elements, fields, monitors and calls: what threads share.
SHARED = {*range(0x2E, 0x36), *range(0x4F, 0x57), *range(0xB2, 0xBA), 0xC2, 0xC3}
