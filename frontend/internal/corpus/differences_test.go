package corpus

import (
	"fmt"
	"strings"
	"sync"
	"testing"
)

// differences are what a test found, a line each. They may be added to from several places at a time.
type differences struct {
	sync.Mutex
	lines []string
}

func (d *differences) add(format string, values ...any) {
	d.Lock()
	defer d.Unlock()
	d.lines = append(d.lines, fmt.Sprintf(format, values...))
}

// mostTold is how many are told, since a fault of the front end may show in every file.
const mostTold = 30

// compare requires the differences to be exactly the accepted ones. In the list of these a line that begins with # is a comment.
func (d *differences) compare(t *testing.T, accepted string) {
	t.Helper()
	left := map[string]int{}
	for _, line := range strings.Split(accepted, "\n") {
		if line = strings.TrimSpace(line); line != "" && line[0] != '#' {
			left[line]++
		}
	}
	count := 0
	for _, line := range d.lines {
		if left[line]--; left[line] < 0 {
			if count++; count <= mostTold {
				t.Error("not accepted:", line)
			}
		}
	}
	if count > mostTold {
		t.Errorf("%d more that are not accepted", count-mostTold)
	}
	for line, count := range left {
		if count > 0 {
			t.Error("accepted, but no longer found:", line)
		}
	}
}
