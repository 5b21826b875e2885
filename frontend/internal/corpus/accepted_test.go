package corpus

// acceptedErrors are where the findings differ from the comments of Go's own error tests.
const acceptedErrors = `
# Go's compiler counts a label as used by a break or continue that may not name it. go/types and document 01 don't.
test/fixedbugs/bug136.go:10: not asked for: label L defined and not used
test/fixedbugs/bug136.go:16: not asked for: label L1 defined and not used
test/fixedbugs/bug179.go:18: not asked for: label L1 defined and not used
`

// acceptedSyntaxErrors are those that go/parser has for a declaration alone, and not for the file, where it gives up or goes on
// elsewhere after an earlier error.
const acceptedSyntaxErrors = `
src/cmd/compile/internal/types2/testdata/fixedbugs/issue43190.go:13:10: expected 'STRING', found ')'
src/cmd/compile/internal/types2/testdata/fixedbugs/issue43190.go:14:1: expected ')', found 'EOF'
src/cmd/compile/internal/types2/testdata/fixedbugs/issue43190.go:14:1: expected ';', found 'EOF'
src/cmd/compile/internal/types2/testdata/fixedbugs/issue43190.go:17:1: expected 'STRING', found ')'
src/cmd/compile/internal/types2/testdata/fixedbugs/issue43190.go:19:1: expected ')', found 'EOF'
src/cmd/compile/internal/types2/testdata/fixedbugs/issue43190.go:19:1: expected ';', found 'EOF'
src/go/types/testdata/fixedbugs/issue43190.go:16:10: expected 'STRING', found ')'
src/go/types/testdata/fixedbugs/issue43190.go:17:1: expected ')', found 'EOF'
src/go/types/testdata/fixedbugs/issue43190.go:17:1: expected ';', found 'EOF'
src/go/types/testdata/fixedbugs/issue43190.go:20:1: expected 'STRING', found ')'
src/go/types/testdata/fixedbugs/issue43190.go:22:1: expected ')', found 'EOF'
src/go/types/testdata/fixedbugs/issue43190.go:22:1: expected ';', found 'EOF'
test/fixedbugs/issue22164.go:20:13: missing ',' before newline in argument list
test/fixedbugs/issue22164.go:21:1: expected operand, found '}'
test/fixedbugs/issue22164.go:23:1: expected ')', found 'EOF'
test/fixedbugs/issue22164.go:23:1: expected ';', found 'EOF'
test/fixedbugs/issue22164.go:23:1: expected '}', found 'EOF'
test/fixedbugs/issue22164.go:23:1: missing ',' in argument list
test/syntax/topexpr.go:14:1: expected declaration, found x
test/syntax/topexpr.go:19:1: expected declaration, found x
`

// acceptedVerdicts are where the verdicts on bodies differ from those of go/types.
const acceptedVerdicts = `
# A body of 2,035 rows is refused, and so has no verdict.
src/cmd/internal/obj/arm64/asm7.go:5686:1: missing return, which only go/types has
`

// acceptedPutIn are where the misplaced branches differ from those of go/types once fallthroughs are put in.
const acceptedPutIn = `
# a clause of a select that neither sends nor receives, which go/types leaves out
test/fixedbugs/issue25958.go:14:13: fallthrough statement out of place, which go/types hasn't
# one of the file's own, which isn't the last in the last clause any more: the compiler tells these apart, go/types doesn't
test/switch4.go:21:3: fallthrough statement out of place, which go/types hasn't
test/switch4.go:21:3: cannot fallthrough final case in switch, which only go/types has
`

// acceptedPackages are those that can't be resolved.
const acceptedPackages = `
# the declarations of Go's predeclared names, which only explain them
src/builtin
# its import isn't installed
src/crypto/internal/edwards25519/field/_asm
`
