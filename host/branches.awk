# Read by host/branches: looks at the conditional jumps of a disassembly by objdump, of x86-64 or of aarch64 (-v machine=NAME). What it
# looks for, and the rules, are in host/branches --help.

function number(hex,    i, n) {
    n = 0
    for (i = 1; i <= length(hex); i++) n = n * 16 + index("0123456789abcdef", substr(hex, i, 1)) - 1
    return n
}

# ---- a function's instructions: where they stand, their word, and their operands

# An operand as it is named here: registers by one name for all their widths, places on the stack as [offset], and the rest as it is.
function named(o,    m) {
    if (arm) {
        if (o ~ /^[xw]zr$/) return "zero"
        if (o ~ /^[xw][0-9]+$/) return "x" substr(o, 2)
        if (o == "[sp]") return "[0]"
        if (o ~ /^\[sp, #-?[0-9]+\]$/) { m = o; gsub(/[^-0-9]/, "", m); return "[" m "]" }
        return o
    }
    if (o ~ /^(-?0x[0-9a-f]+)?\(%rsp\)$/) {
        m = o; sub(/\(.*/, "", m)
        return "[" (m ~ /^-/ ? -number(substr(m, 4)) : m == "" ? 0 : number(substr(m, 3))) "]"
    }
    if (o !~ /^%/) return o
    o = substr(o, 2)
    if (o ~ /^r[0-9]+[dwb]?$/) { sub(/[dwb]$/, "", o); return o }
    if (o ~ /^[re]?(ax|bx|cx|dx|si|di|bp|sp)$/) { sub(/^[re]/, "", o); return "r" o }
    if (o ~ /^[abcd][lh]$/) return "r" substr(o, 1, 1) "x"
    if (o ~ /^(si|di|bp|sp)l$/) return "r" substr(o, 1, 2)
    return o
}

# Splits the operands of instruction i at the commas outside of brackets. The last of count[i] is x86-64's destination, and the
# first aarch64's.
function split_operands(i, text,    k, ch, depth, one) {
    count[i] = 0
    one = ""
    depth = 0
    for (k = 1; k <= length(text) + 1; k++) {
        ch = k <= length(text) ? substr(text, k, 1) : ","
        if (ch == "(" || ch == "[" || ch == "{") depth++
        if (ch == ")" || ch == "]" || ch == "}") depth--
        if (ch == "," && depth == 0) {
            sub(/^ +/, "", one); sub(/ +$/, "", one)
            if (one != "") { raw[i, ++count[i]] = one; operand[i, count[i]] = named(one) }
            one = ""
        } else one = one ch
    }
}

function is_conditional(i) { return arm ? word[i] ~ /^(b\.|cbn?z$|tbn?z$)/ : word[i] ~ /^j/ && word[i] != "jmp" }
function is_jump(i) { return is_conditional(i) || word[i] == (arm ? "b" : "jmp") }
# A jump to where a register says: a table of places, by which of some cases it is.
function is_indirect(i) { return arm ? word[i] == "br" : word[i] == "jmp" && text_of[i] ~ /\*/ }
# Whether the next instruction never comes behind this one.
function ends_here(i) { return word[i] == (arm ? "b" : "jmp") || is_indirect(i) || word[i] ~ /^(ret|ud2|udf)/ }
function is_call(i) { return arm ? word[i] ~ /^blr?$/ : word[i] ~ /^call/ }
function target(i) { return goes_to[i] }
function shown(i) { return sprintf("%x: %s", place[i], text_of[i]) }

# ---- what a register was worked out from

# The arguments in their order. What a call may write over.
function argument(r,    k, list, count_of) {
    count_of = split(arm ? "x0 x1 x2 x3 x4 x5 x6 x7" : "rdi rsi rdx rcx r8 r9", list, " ")
    for (k = 1; k <= count_of; k++) if (list[k] == r) return k
    return 0
}
function is_lost_in_calls(r) { return arm ? r ~ /^x([0-9]|1[0-8]|30)$/ : r ~ /^(rax|rcx|rdx|rsi|rdi|r8|r9|r10|r11)$/ }

function offset(slot) { return substr(slot, 2, length(slot) - 2) + 0 }
# How many bytes an operand has, as far as a store is concerned. A number's are not said.
function width(o) {
    if (o ~ /^(%ymm|\$)/) return 32
    if (o ~ /^(%xmm|q)/) return 16
    if (o ~ /^(w|%e[a-z]+$|%r[0-9]+d$)/) return 4
    return o ~ /^%([abcd][lh]|[sd]il|[sb]pl|r[0-9]+b)$/ ? 1 : 8
}

# How instruction i writes r, a register or a place on the stack: 0 not, 1 as its destination, 2 otherwise or in part.
function writes(i, r,    w, k, at, size) {
    w = word[i]
    if (r ~ /^\[/) {
        # the stack itself moves
        if (arm && ((w ~ /^(add|sub|mov)$/ && raw[i, 1] == "sp") || text_of[i] ~ /\[sp[^]]*\](!|, #)/)) return 2
        if (!arm && (w ~ /^(push|pop)/ || (w ~ /^(add|sub|mov|lea|and)/ && operand[i, count[i]] == "rsp"))) return 2
        if (arm && w !~ /^st/) return 0
        if (!arm && w ~ /^(cmp|test|j|call|vp?test)/) return 0
        k = count[i]
        if (operand[i, k] !~ /^\[-?[0-9]+\]$/) return 0
        if (operand[i, k] == r) return 1
        at = offset(operand[i, k])
        size = width(raw[i, 1]) * (w ~ /^stn?p/ ? 2 : 1)
        if (at >= offset(r) + (r in narrow ? narrow[r] : 8) || at + size <= offset(r)) return 0
        return arm && w == "stp" && at + width(raw[i, 1]) == offset(r) ? 1 : 2
    }
    if (is_call(i)) return is_lost_in_calls(r) ? 2 : 0
    if (is_jump(i)) return 0
    if (arm) {
        if (w ~ /^(st|cmp|cmn|tst|ccm|fcmp|ret|nop|prfm)/) return 0
        if (w ~ /^ldn?p/) return operand[i, 1] == r || operand[i, 2] == r
        return operand[i, 1] == r
    }
    if (w ~ /^(cmp|test|push|nop|data16|cs|ret|vp?test|bt$)/) return 0
    # two bytes that do nothing, as filling
    if (w == "xchg" && raw[i, 1] == "%ax" && raw[i, 2] == "%ax") return 0
    if (w ~ /^(mul|div|idiv|cqto|cltd|rep|cpuid|stos|movs$)/ || (w ~ /^imul/ && count[i] == 1)) return r ~ /^(rax|rdx|rcx|rsi|rdi)$/ ? 2 : 0
    if (w ~ /^(xchg|xadd|mulx)/) for (k = 1; k < count[i]; k++) if (operand[i, k] == r) return 2
    return operand[i, count[i]] == r
}

# What is found of all that can reach instruction i in r goes into `found`: "argument N", "constant", "answer" of a comparison, or
# "unknown" with the instruction.
function trace(i, r) {
    if (r == "zero") { found["constant"]; return }
    if ((i, r) in seen) return
    seen[i, r]
    waiting++
    wait_at[waiting] = i
    wait_for[waiting] = r
}
# The instruction in front, and every jump to here.
function trace_one(    i, r, k) {
    i = wait_at[waiting]
    r = wait_for[waiting]
    waiting--
    if (i == 1) reach_entry(r)
    else if (!ends_here(i - 1)) reach(i - 1, r)
    # behind an end it is reached by a jump, and any table may have its place
    for (k = 1; k <= n; k++) if ((is_jump(k) && target(k) == place[i]) || (is_indirect(k) && i > 1 && ends_here(i - 1))) reach(k, r)
}
# On x86-64 arguments from the seventh on are on the stack, behind the place to return to.
function reach_entry(r) {
    if (argument(r)) found["argument " argument(r)]
    else if (!arm && r ~ /^\[/ && offset(r) >= 8) found["argument " (6 + offset(r) / 8)]
    else found["unknown, from before " name]
}
# By how many bytes the stack moves at a function's front.
function moves_stack(i) {
    if (arm) return 0
    if (word[i] ~ /^push/) return 8
    return word[i] ~ /^sub/ && operand[i, 2] == "rsp" && raw[i, 1] ~ /^\$0x/ ? number(substr(raw[i, 1], 4)) : 0
}
function reach(i, r,    how) {
    if (r ~ /^\[/ && moves_stack(i) && offset(r) >= moves_stack(i)) { trace(i, "[" (offset(r) - moves_stack(i)) "]"); return }
    how = writes(i, r)
    if (how == 0) trace(i, r)
    else if (how == 2) found["unknown, by " shown(i)]
    else if (arm) made_on_arm(i, r)
    else made_on_x86(i, r)
}
function other(i, o) {
    if (o ~ /^[$#]/) found["constant"]
    else if (o ~ /^(r[a-z0-9]+|x[0-9]+|zero|\[-?[0-9]+\])$/) trace(i, o)
    else found["unknown, by " shown(i)]
}
function made_on_x86(i, r,    w, k, list, parts) {
    w = word[i]
    # what is read of the stack is as wide as the register that it goes to
    if (count[i] == 2 && operand[i, 1] ~ /^\[/ && w !~ /^(mov[sz]|lea)/) narrow[operand[i, 1]] = width(raw[i, 2])
    if (w ~ /^set/) found["answer"]
    else if (w ~ /^xor/ && operand[i, 1] == operand[i, 2]) found["constant"]
    else if (w ~ /^mov/ && w !~ /^movbe/ && count[i] == 2) other(i, operand[i, 1])
    else if (w ~ /^lea/ && operand[i, 1] ~ /^\[/) found["unknown, by " shown(i)]
    else if (w ~ /^lea/) {
        parts = operand[i, 1]; sub(/^[^(]*\(/, "", parts); sub(/\).*/, "", parts)
        split(parts, list, ",")
        for (k = 1; k <= 2; k++) if (list[k] == "%rip") found["constant"]; else if (list[k] != "") other(i, named(list[k]))
    } else if (w ~ /^(neg|not|inc|dec|bswap|shl|shr|sar|sal)/ && count[i] == 1) trace(i, r)
    else if (w ~ /^(and|add|sub|or|xor|shl|shr|sar|sal|cmov|imul)/ && count[i] == 2) { trace(i, r); other(i, operand[i, 1]) }
    else found["unknown, by " shown(i)]
}
function made_on_arm(i, r,    w, k, last) {
    w = word[i]
    if (w ~ /^(cset|csetm)$/) found["answer"]
    else if (w ~ /^(str|stur)$/) other(i, operand[i, 1])
    else if (w == "stp") other(i, operand[i, operand[i, 3] == r ? 1 : 2])
    else if (w ~ /^ldn?p$/ && operand[i, 3] ~ /^\[-?[0-9]+\]$/)
        other(i, operand[i, 1] == r ? operand[i, 3] : "[" (offset(operand[i, 3]) + width(raw[i, 1])) "]")
    else if (w == "ldr" && raw[i, 1] ~ /^w/) { narrow[operand[i, 2]] = 4; other(i, operand[i, 2]) }
    else if (w ~ /^ldu?r$/) other(i, operand[i, 2])
    else if (w ~ /^(mov|neg|mvn|and|ands|orr|eor|add|adds|sub|subs|lsl|lsr|asr|ubfx|sbfx|csel|csinc|cinc|mul|madd)$/) {
        # a condition at the end is none of what it is made of, nor is a shift
        for (k = 2; k <= count[i]; k++) if (raw[i, k] !~ /^(eq|ne|cs|cc|hs|lo|hi|ls|mi|pl|ge|gt|lt|le|lsl #.*|lsr #.*|asr #.*|uxtw.*|sxtw.*)$/) other(i, operand[i, k])
    } else found["unknown, by " shown(i)]
}

# Whether all that register r was worked out from, before instruction i, is constants, answers of comparisons, and the arguments that
# are listed for this function.
function is_public(i, r,    what, ok) {
    delete found
    delete seen
    delete narrow
    waiting = 0
    trace(i, r)
    while (waiting > 0) trace_one()
    ok = 0
    why = ""
    for (what in found) {
        ok = 1
        if (what == "constant" || what == "answer" || (name " " what) in listed) continue
        why = why (why == "" ? "" : "; ") what
    }
    return ok && why == ""
}

# ---- the functions that work with secrets

# Arguments that are no secret, by their place: how many blocks or rows there are, and which kind of work it is. An array or a large
# result goes by a pointer, which is an argument too.
function list_arguments() {
    listed["sixteen::encrypt argument 2"]               # m: how many blocks
    listed["cipher::encrypt argument 2"]                # engine: what the rounds go by
    listed["stream::few::few argument 4"]               # wide, in the kind: whether all of the counter counts, or its last word
    listed["stream::few::few argument 6"]               # m: how many blocks
    listed["field::power argument 3"]                   # n: to which power, a count of blocks
    listed["sliced::counters::add_word argument 3"]     # n: how many rows hold anything, 0 or 9, a constant of the callers
    listed["sliced::encrypt_xored argument 2"]          # m: how many blocks
    listed["stream::batches::counters argument 3"]      # wide: whether all of the counter counts, Ctr, or its last word, Gcm
    listed["stream::batches::counters argument 6"]      # how many bytes of text there are
}

# Whether the last instruction before i that changes what is asked is one that loops and questions of addresses go by. Each rule is
# explained in host/branches --help.
function is_allowed(i, by,    w, r) {
    if (arm && word[i] ~ /^cbn?z$/) return rule("zero")
    if (arm && word[i] ~ /^tbn?z$/) return is_public(i, operand[i, 1]) && rule("bits of counts and flags")
    if (by == 0) return 0
    w = word[by]
    if (arm) {
        if (w ~ /^(subs|adds)$/) return rule("counter")
        if (w ~ /^(cmp|cmn|ccmp|ccmn)$/) return rule("comparison")
        return w ~ /^(tst|ands)$/ && is_public(by, operand[by, w == "tst" ? 1 : 2]) && rule("bits of counts and flags")
    }
    if (w ~ /^(add|sub|inc|dec)/ && text_of[by] !~ /\(/) return rule("counter")
    if (w ~ /^shr/ && count[by] == 1 && is_public(by, operand[by, 1])) return rule("counter")
    # so many bits shifted out: whether any of the upper ones is there
    if (w ~ /^shr/ && raw[by, 1] ~ /^\$/ && is_public(by, operand[by, 2])) return rule("bits of counts and flags")
    if (w ~ /^cmp/ && (text_of[by] !~ /\(/ || text_of[by] ~ /\(%rsp\)/)) return rule("comparison")
    if (w ~ /^test/ && raw[by, 1] == raw[by, 2] && raw[by, 1] ~ /^%/) return rule("zero")
    if (w ~ /^(test|or|and|xor)$/ && text_of[by] ~ /,%([abcd]l|[sd]il|[sb]pl|r[0-9]+b)$/ && text_of[by] !~ /\$/) return rule("answers")
    return w ~ /^(test|and)/ && raw[by, 1] ~ /^\$/ && is_public(by, operand[by, 2]) && rule("bits of counts and flags")
}
function rule(what) { by_rule[what]++; return 1 }

function changes_flags(i,    w) {
    w = word[i]
    if (arm) return w ~ /^(cmp|cmn|tst|ccmp|ccmn|subs|adds|ands|bics|adcs|sbcs|negs|ngcs|fcmp|fccmp)/
    if (w ~ /^(v?ptest|vtest|popcnt)/) return 1
    return w !~ /^(mov|lea|push|pop|nop|data16|cs$|set|cmov|bswap|not|v[a-z]|p[a-z]+|[a-z]*p[sd]$|jmp|j|call|ret|rorx|sarx|shlx|shrx|mulx)/
}

# The gates, what the modes do with many blocks at once, the products and the hash over them.
function is_looked_at() {
    return name ~ /^(circuit|lanes|sixteen|sliced|rows|carryless|field|ghash)::/ || name ~ /^(cipher::gates|cipher::round_map|stream::batches|stream::few)::/ || name == "cipher::encrypt"
}

# A product is known by the mask of every fourth bit of 64.
function has_products(    i) {
    for (i = 1; i <= n; i++) if (text_of[i] ~ /[$#]0x1111111111111111(,|$)/) return 1
    return 0
}

function look_at_jumps(    i, by) {
    if (has_products()) {
        with_products++
        if (!is_looked_at()) { printf "%s: has products, and is not looked at\n", name; bad++ }
    }
    if (!is_looked_at()) return
    functions++
    by = 0
    for (i = 1; i <= n; i++) {
        if (is_conditional(i)) {
            jumps++
            why = ""
            if (!is_allowed(i, by)) {
                printf "%s: %s goes by: %s%s\n", name, shown(i), by ? shown(by) : "nothing that is seen", why == "" ? "" : " (" why ")"
                bad++
            }
        } else if (changes_flags(i)) by = i
    }
}

# ---- the disassembly

function finish() {
    if (n > 0) look_at_jumps()
    n = 0
}

BEGIN { arm = machine == "aarch64"; list_arguments() }
/^[0-9a-f]+ <.*>:$/ {
    finish()
    name = $0; sub(/^[^<]*</, "", name); sub(/>:$/, "", name)
    # a variant's name stands behind that of a function
    sub(/[._]x86_64(_v3)?$/, "", name)
    next
}
/^ *[0-9a-f]+:\t/ {
    n++
    line = $0
    sub(/^ */, "", line)
    split(line, part, "\t")
    sub(/:.*/, "", part[1])
    place[n] = number(part[1])
    text = part[2]
    if (part[3] != "") text = text " " part[3]
    # what objdump explains behind it
    sub(/ *(\/\/|#  ?[0-9a-f]+ <).*/, "", text); sub(/[ \t]*<.*/, "", text); sub(/ +$/, "", text)
    text_of[n] = text
    word[n] = text; sub(/ .*/, "", word[n])
    sub(/^[^ ]* */, "", text)
    split_operands(n, text)
    if (is_jump(n)) { text = raw[n, count[n]]; sub(/^.* /, "", text); goes_to[n] = is_indirect(n) ? -1 : number(text) }
}
END {
    finish()
    printf "%d functions of the gates, of the products and of the hash, %d of them with products, %d conditional jumps", functions, with_products, jumps
    separator = ": by "
    for (what in by_rule) { printf "%s%s %d", separator, what, by_rule[what]; separator = ", " }
    printf "; %d by anything else\n", bad
    exit !(with_products > 0 && functions > 0 && jumps > 0 && bad == 0)
}
