package rows

import "testing"

var branchCases = []bodyCase{
	{"@{@break}", "Block:2 Branch"},
	{"@{@continue}", "Block:2 Branch.1"},
	{"@{@fallthrough}", "Block:2 Branch.3"},
	{"@{break @L}", "Block:2 Branch(L)"},
	{"@{continue @L}", "Block:2 Branch.1(L)"},
	{"@{goto @L}", "Block:2 Branch.2(L)"},
	{"@{goto /* where */ @L}", "Block:2 Branch.2(L)"},
	{"@{goto @_}", "Block:2 Branch.2(_)"},
	// a line's end ends a break
	{"@{@break\n@L: @}", "Block:4 Branch Labeled(L):2 Empty"},
}

func TestBranches(t *testing.T) { tryAll(t, branchCases) }

var labels = []bodyCase{
	{"@{@L: @x++}", "Block:3 Labeled(L):2 IncDec"},
	{"@{@L :\n\n @return}", "Block:3 Labeled(L):2 Return"},
	{"@{@L: @M: @for @{}}", "Block:5 Labeled(L):4 Labeled(M):3 For:2 Block"},
	{"@{@L: @{}}", "Block:3 Labeled(L):2 Block"},
	{"@{@L: goto @L}", "Block:3 Labeled(L):2 Branch.2(L)"},
	{"@{@_: @return}", "Block:3 Labeled(_):2 Return"},
	{"@{@panic: @panic(1)}", "Block:3 Labeled(panic):2 Expr.1"},
	// the Empty after a label before a brace has the brace's place
	{"@{@L:@}", "Block:3 Labeled(L):2 Empty"},
	{"@{@L: // end\n@}", "Block:3 Labeled(L):2 Empty"},
	{"@{@L: @M:@}", "Block:4 Labeled(L):3 Labeled(M):2 Empty"},
	{"@{@L: @; @x++}", "Block:4 Labeled(L):2 Empty IncDec"},
	{"@{@L: @x := 1}", "Block:3 Labeled(L):2 Assign.1"},
	{"@{@L: @var x int}", "Block:3 Labeled(L):2 Decl.1"},
}

func TestLabels(t *testing.T) { tryAll(t, labels) }

var ifs = []bodyCase{
	{"@{@if a @{}}", "Block:3 If:2 Block"},
	{"@{@if a @{} else @{}}", "Block:4 If.1:3 Block Block"},
	{"@{@if a @{@x++} else @{@return}}", "Block:6 If.1:5 Block:2 IncDec Block:2 Return"},
	{"@{@if a @{} else @if b @{}}", "Block:5 If.1:4 Block If:2 Block"},
	{"@{@if a @{} else @if b @{} else @{}}", "Block:6 If.1:5 Block If.1:3 Block Block"},
	{"@{@if a @{} else @if b @{} else @if c @{} else @{@x++}}", "Block:9 If.1:8 Block If.1:6 Block If.1:4 Block Block:2 IncDec"},
	// what stands in the head is no row
	{"@{@if x := f(); x > 0 @{}}", "Block:3 If:2 Block"},
	{"@{@if f(func() { return }) @{}}", "Block:3 If:2 Block"},
	{"@{@if a @{@if b @{} else @{}}}", "Block:6 If:5 Block:4 If.1:3 Block Block"},
}

func TestIfs(t *testing.T) { tryAll(t, ifs) }

var loops = []bodyCase{
	{"@{@for @{}}", "Block:3 For:2 Block"},
	{"@{@for ;; @{}}", "Block:3 For:2 Block"},
	{"@{@for i := 0;; i++ @{}}", "Block:3 For:2 Block"},
	{"@{@for i := 0;; @{}}", "Block:3 For:2 Block"},
	{"@{@for ;; i++ @{}}", "Block:3 For:2 Block"},
	{"@{@for true @{}}", "Block:3 For.1:2 Block"},
	{"@{@for a @{}}", "Block:3 For.1:2 Block"},
	{"@{@for ; a; @{}}", "Block:3 For.1:2 Block"},
	{"@{@for i := 0; i < 9; i++ @{@x++}}", "Block:4 For.1:3 Block:2 IncDec"},
	{"@{@for @{@for @{}}}", "Block:5 For:4 Block:3 For:2 Block"},

	{"@{@for range x @{}}", "Block:3 Range:2 Block"},
	{"@{@for i := range x @{}}", "Block:3 Range:2 Block"},
	{"@{@for i, v := range x @{}}", "Block:3 Range:2 Block"},
	{"@{@for i = range x @{}}", "Block:3 Range:2 Block"},
	{"@{@for a[0], *p = range x @{}}", "Block:3 Range:2 Block"},
	{"@{@for range func() int { return 1 }() @{@return}}", "Block:4 Range:3 Block:2 Return"},
}

func TestLoops(t *testing.T) { tryAll(t, loops) }

var switches = []bodyCase{
	{"@{@switch @{}}", "Block:3 Switch:2 Block"},
	{"@{@switch x @{}}", "Block:3 Switch:2 Block"},
	{"@{@switch x := f(); x @{}}", "Block:3 Switch:2 Block"},
	{"@{@switch f(); @{}}", "Block:3 Switch:2 Block"},
	{"@{@switch @{@case a:}}", "Block:4 Switch:3 Block:2 Case"},
	{"@{@switch @{@default:}}", "Block:4 Switch:3 Block:2 Case.1"},
	{"@{@switch x @{@case 1: @default: @x++; @case 2, 3: @return}}",
		"Block:8 Switch:7 Block:6 Case Case.1:2 IncDec Case:2 Return"},
	{"@{@switch x @{@case 1: @fallthrough; @case 2: @;}}", "Block:7 Switch:6 Block:5 Case:2 Branch.3 Case:2 Empty"},
	{"@{@switch @{@default: @{}}}", "Block:5 Switch:4 Block:3 Case.1:2 Block"},

	{"@{@switch x.(type) @{}}", "Block:3 TypeSwitch:2 Block"},
	{"@{@switch y := x.(type) @{@case int, string: @y++; @case nil: @default:}}",
		"Block:7 TypeSwitch:6 Block:5 Case:2 IncDec Case Case.1"},
	{"@{@switch f(); x.(type) @{}}", "Block:3 TypeSwitch:2 Block"},
	{"@{@switch z := 1; y := x.(type) @{}}", "Block:3 TypeSwitch:2 Block"},
	// an assertion that names its type is no type switch
	{"@{@switch x.(int) @{}}", "Block:3 Switch:2 Block"},
}

func TestSwitches(t *testing.T) { tryAll(t, switches) }

var selects = []bodyCase{
	{"@{@select @{}}", "Block:3 Select:2 Block"},
	{"@{@select @{@default:}}", "Block:4 Select:3 Block:2 Comm.1"},
	{"@{@select @{@case c <- 1: @case <-c: @case x := <-c: @case x, ok = <-c: @case (<-c): @default:}}",
		"Block:9 Select:8 Block:7 Comm Comm Comm Comm Comm Comm.1"},
	{"@{@select @{@case <-c: @x++; @break; @default: @return}}", "Block:8 Select:7 Block:6 Comm:3 IncDec Branch Comm.1:2 Return"},
}

func TestSelects(t *testing.T) { tryAll(t, selects) }

// go/parser lets a second default through.
func TestSecondDefaults(t *testing.T) {
	tryAll(t, []bodyCase{
		{"@{@switch @{@default: @default: @x++}}", "Block:6 Switch:5 Block:4 Case.1 Case.1:2 IncDec"},
		{"@{@switch x.(type) @{@default: @case T: @default:}}", "Block:6 TypeSwitch:5 Block:4 Case.1 Case Case.1"},
		{"@{@select @{@default: @default:}}", "Block:5 Select:4 Block:3 Comm.1 Comm.1"},
	})
}

var blocks = []bodyCase{
	{"@{@{}}", "Block:2 Block"},
	// the first semicolon after a statement ends it, the next is an Empty
	{"@{@{@{};@;};@;@{};}", "Block:6 Block:3 Block Empty Empty Block"},
	{"@{@L: @for x @{@if a @{break @L} else @{continue @L}}; @return}",
		"Block:10 Labeled(L):8 For.1:7 Block:6 If.1:5 Block:2 Branch(L) Block:2 Branch.1(L) Return"},
	{"@{@switch @{@case a: @select @{@default: @L: @switch x.(type) @{@case T: break @L}}}}",
		"Block:12 Switch:11 Block:10 Case:9 Select:8 Block:7 Comm.1:6 Labeled(L):5 TypeSwitch:4 Block:3 Case:2 Branch(L)"},
}

func TestBlocks(t *testing.T) { tryAll(t, blocks) }
