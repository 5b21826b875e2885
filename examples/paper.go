// A script as a candidate hands it in: control flow with some faults.
package paper

import "strings"

// find says where the word stands, row and column.
func find(page [][]string, word string) (row, column int) {
search:
	for row = range page {
		for column = range page[row] {
			if page[row][column] == word {
				break search
			}
		}
	}
}

// grade has a case for each mark.
func grade(points int) string {
	switch {
	case points > 90:
		return "A"
	case points > 80:
		fallthrough
	default:
		return "B"
	}
}

// read goes round until the text is used up.
func read(text string) int {
	lines := 0
retry:
	if text == "" {
		goto done
	}
	count := strings.Count(text, "\n")
	lines += count
	text = text[count:]
	goto retry
done:
	return lines
}

// skip passes over what isn't wanted.
func skip(list []int) {
again:
	for _, n := range list {
		if n < 0 {
			continue agian
		}
		if n == 0 {
			break
		}
		func() {
			if n > 100 {
				continue
			}
		}()
	}
}

// last says yes to the end.
func last(n int) bool {
	switch n {
	case 0:
		return false
	case 1:
		fallthrough
	}
	for {
		if n--; n == 0 {
			panic("never")
		}
	}
}
