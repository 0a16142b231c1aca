# Rewrites the LLVM module that rattle makes of capi_c for x86-64 into one for another target. Arguments: probe, what clang makes of
# include/lp586x.h on the target (its data layout, its triple, a declaration of each function); optsize, 1 for code that is to be small.
# What changes is the data layout, the triple, the processor's name, and the entry of an exported function, which becomes the one that the
# header declares: where size_t has 32 bits, the length of a slice comes in with 32 and is widened. Inside it has 64, as it was proved.
# That the rest means the same on any target that is little-endian and has 64-bit numbers at multiples of 8 (tools/port asks for that) rests on
# its form, so a line of another form is refused: addresses are counted in bytes (getelementptr of i8 alone), no pointer is made of a number or
# the other way round, what is copied or filled has a constant length, there is no global variable but constant bytes and no assembly,
# two values that go together are two numbers, and only the functions of the module and these two of LLVM are called.
BEGIN {
    TYPE = "(i1|i8|i16|i32|i64)"
    VALUE = "(%|N|true|false)"
    PAIR = "\\{ " TYPE ", " TYPE " \\}"
    AT = "ptr %, align N"
    know("alloca (" TYPE "|ptr|\\[N x i8\\]), align N")
    know("getelementptr (inbounds nuw )?i8, ptr %, i64 (%|N)")
    know("load (" TYPE "|ptr), " AT "(, !range !N)?(, !noundef !N)?")
    know("load " PAIR ", " AT)
    know("extractvalue " PAIR " %, N")
    know("store (" TYPE " " VALUE "|ptr (%|@S)), " AT)
    know("(add|sub|mul)( nuw)? " TYPE " " VALUE ", " VALUE)
    know("(udiv|urem|and|or|xor|shl|lshr) " TYPE " " VALUE ", " VALUE)
    know("icmp (eq|ne|ult|ule|ugt|uge) " TYPE " " VALUE ", " VALUE)
    know("icmp (eq|ne) ptr %, null")
    know("(zext|trunc|trunc nuw) " TYPE " " VALUE " to " TYPE)
    know("call (void|" TYPE "|" PAIR ") @F\\(((" TYPE " " VALUE "|ptr %)(, )?)*\\)")
    know("call void @llvm\\.memmove\\.p0\\.p0\\.i64\\(ptr %, ptr %, i64 N, i1 false\\)")
    know("call void @llvm\\.memset\\.p0\\.i64\\(ptr %, i8 " VALUE ", i64 N, i1 false\\)")
    know("br (label %|i1 %, label %, label %)")
    know("switch " TYPE " %, label % \\[")
    know(TYPE " (N|true|false), label %")
    know("\\]")
    know("ret (void|" TYPE " " VALUE "|" PAIR " %)")
    know("unreachable")
    internal = "^define internal (noundef (zeroext )?)?(void|" TYPE "|" PAIR ") @\"[^\"]*\"\\(((ptr|" TYPE ")( noundef)?( zeroext)? %a[0-9]+(, )?)*\\) #0 \\{$"
    read_probe()
}

function know(form) {
    forms = forms (forms == "" ? "" : "|") "^" form "$"
}

function refuse(why) {
    print "the module has a form that this script does not know, " why ": " $0 >"/dev/stderr"
    refused = 1
    exit 1
}

# The target's own lines go in front; the declarations are kept by name: the types of the parameters, and how the result is extended.
function read_probe(    line, name, parameters) {
    while ((getline line < probe) > 0) {
        if (line ~ /^target (datalayout|triple) = /)
            print line
        if (line !~ /^declare .*i32 @lp586x_/)
            continue
        name = line
        sub(/.*@/, "", name)
        sub(/\(.*/, "", name)
        parameters = line
        sub(/^[^(]*\(/, "", parameters)
        sub(/\).*/, "", parameters)
        declared[name] = parameters
        extended[name] = line ~ / (zeroext|signext) i32 @/ ? (line ~ / zeroext i32 @/ ? "zeroext " : "signext ") : ""
    }
}

# The form of an instruction: no names, no numbers.
function form_of(line) {
    sub(/^ +/, "", line)
    sub(/^%[A-Za-z0-9_.]+ = /, "", line)
    gsub(/%[A-Za-z0-9_.]+/, "%", line)
    gsub(/@"[^"]*"/, "@F", line)
    gsub(/@static\.[0-9]+/, "@S", line)
    gsub(/ -?[0-9]+/, " N", line)
    gsub(/\[[0-9]+ x/, "[N x", line)
    gsub(/![0-9]+/, "!N", line)
    return line
}

# An exported function. A parameter has the type that the header declares, or is a length that has 64 bits here and 32 there.
function entry(    name, parameters, count, types, i, number, widened) {
    if ($0 !~ /^define noundef i32 @lp586x_[a-z_]+\(((ptr|i32|i64) noundef %a[0-9]+(, )?)+\) #0 \{$/)
        refuse("an exported function")
    name = parameters = $0
    sub(/.*@/, "", name)
    sub(/\(.*/, "", name)
    sub(/^[^(]*\(/, "", parameters)
    sub(/\).*/, "", parameters)
    count = split(parameters, parameter, ", ")
    if (!(name in declared) || split(declared[name], types, ", ") != count)
        refuse("a function that include/lp586x.h does not declare so")
    for (i = 1; i <= count; i++) {
        sub(/ .*/, "", types[i])
        if (index(parameter[i], types[i] " ") == 1)
            continue
        if (types[i] != "i32" || parameter[i] !~ /^i64 / || parameter[i - 1] !~ /^ptr /)
            refuse("a parameter that include/lp586x.h does not declare so")
        number = parameter[i]
        sub(/.*%a/, "", number)
        parameter[i] = "i32 noundef %s" number
        widened = widened "  %a" number " = zext i32 %s" number " to i64\n"
    }
    delete declared[name]
    print_entry(name, count, widened)
}

function print_entry(name, count, widened,    i) {
    printf "define noundef %si32 @%s(", extended[name], name
    for (i = 1; i <= count; i++)
        printf "%s%s", i == 1 ? "" : ", ", parameter[i]
    print ") #0 {"
    getline
    if ($0 != "start:")
        refuse("no start of a function")
    printf "start:\n%s", widened
}

/^;/ || /^$/ { next }
/^source_filename = "rattle"$/ { print; next }
/^target (datalayout|triple) = / { next }
/^@static\.[0-9]+ = private unnamed_addr constant \[[0-9]+ x i8\] (zeroinitializer|c"[^"]*"), align [0-9]+$/ { print; next }
/^define internal / && $0 ~ internal { print; next }
/^define / { entry(); next }
/^declare void @llvm\.memmove\.p0\.p0\.i64\(/ { print; next }
/^declare void @llvm\.memset\.p0\.i64\(/ { print; next }
/^attributes #0 = \{ nounwind "probe-stack"="inline-asm" "stack-probe-size"="[0-9]+" "target-cpu"="x86-64-v2" \}$/ {
    sub(/ "target-cpu"="x86-64-v2"/, "")
    if (optsize) sub(/nounwind/, "optsize nounwind")
    print
    next
}
/^attributes #[12] = \{ nocallback nofree nounwind willreturn memory\(argmem: (read)?write\) \}$/ { print; next }
/^!llvm\.ident = !\{!0\}$/ || /^![0-9]+ = !\{(!"rattle logic=[0-9a-f]+"|i8 0, i8 2)?\}$/ { print; next }
/^[a-z]+(\.[0-9]+)?:/ { print; next }
/^\}$/ { print; next }
/^ / && form_of($0) ~ forms { print; next }
{ refuse("a line") }

END {
    if (!refused)
        for (name in declared) {
            $0 = name
            refuse("no function")
        }
    exit refused
}
