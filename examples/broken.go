// A script with a syntax error and a switch with two defaults: the other functions are still marked.
package paper

func first(n int) int {
	if n > 0 {
		return 1
	}
}

func second(n int) int {
	return n +
}

func third() {
	break
}

func fourth(n int) string {
	switch n {
	default:
		return "many"
	case 1:
		return "one"
	default:
		return "none"
	}
}
