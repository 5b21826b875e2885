// A script without a fault.
package paper

type state int

// run goes through the states until one of them ends it.
func run(next func(state) (state, bool), start state) state {
	s := start
loop:
	for {
		t, ok := next(s)
		switch {
		case !ok:
			break loop
		case t == s:
			continue loop
		}
		s = t
	}
	return s
}

// must gives the value or panics.
func must(value int, ok bool) int {
	if ok {
		return value
	} else {
		panic("no value")
	}
}

// serve answers until it is told to stop, and then waits for ever.
func serve(requests <-chan int, stop <-chan bool) int {
	for {
		select {
		case n := <-requests:
			if n < 0 {
				return n
			}
		case <-stop:
			select {}
		}
	}
}
