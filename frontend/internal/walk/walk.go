// Package walk follows a body by given choices through the walk call, a state at a time, and says in words what is met.
package walk

import (
	"errors"

	"zesthull/internal/calls"
	"zesthull/internal/rows"
)

// An End is why a walk ends.
type End int

const (
	// Stopped: at a return, a panic or an empty select.
	Stopped End = iota
	// Brace: it fell off the closing brace.
	Brace
	// Limit: it made as many steps as it may.
	Limit
	// NoChoice: it is at a fork, and no choice is left.
	NoChoice
	// OutOfRange: it is at a fork where the next choice isn't open.
	OutOfRange
)

// A Walk is what a walk met. States[n] is where it is after n steps.
type Walk struct {
	rows.Body
	Choices []uint32
	States  []calls.Walked
	End     End

	words calls.Body
}

// By walks a body by the choices, up to limit steps. It asks the walk call with the limits 0, 1, 2 and so on: each answer
// is the next state, until there is none. An error is a refusal but 9, which is the end OutOfRange.
func By(b rows.Body, choices []uint32, limit uint) (*Walk, error) {
	w := &Walk{Body: b, Choices: choices, words: b.Words()}
	for n := uint(0); n <= limit; n++ {
		state, err := calls.Walk(w.words, choices, n)
		if isOutOfRange(err) {
			w.End = OutOfRange
			return w, nil
		}
		if err != nil {
			return nil, err
		}
		if uint(state.Steps) < n {
			w.End = endAt(state.Place, NoChoice)
			return w, nil
		}
		w.States = append(w.States, state)
	}
	w.End = endAt(w.Last().Place, Limit)
	return w, nil
}

// endAt is the end at a place, where at a row it is that one.
func endAt(p calls.Place, atRow End) End {
	switch p {
	case calls.Stopped:
		return Stopped
	case calls.Brace:
		return Brace
	}
	return atRow
}

func isOutOfRange(err error) bool {
	var refusal *calls.Refusal
	return errors.As(err, &refusal) && refusal.Number == calls.OutOfRange
}

// Last is the state in which the walk ends.
func (w *Walk) Last() calls.Walked { return w.States[len(w.States)-1] }

// A Choice is one that is taken or open at a fork: its number, what it is in a word, and where it leads.
type Choice struct {
	Number int
	Word   string
	To     calls.Place
}

// Taken is the choice taken after n steps, if one was.
func (w *Walk) Taken(n int) (Choice, bool) {
	if n+1 >= len(w.States) || w.States[n+1].Used == w.States[n].Used {
		return Choice{}, false
	}
	return w.choice(w.States[n], int(w.Choices[w.States[n].Used]), w.States[n+1].Place), true
}

// Open are the choices open where the walk ends, with NoChoice or OutOfRange: each is tried after those used, until one is
// out of range.
func (w *Walk) Open() (open []Choice) {
	last := w.Last()
	used := w.Choices[:last.Used:last.Used]
	for number := 0; ; number++ {
		next, err := calls.Walk(w.words, append(used, uint32(number)), uint(last.Steps)+1)
		if err != nil {
			return open
		}
		open = append(open, w.choice(last, number, next.Place))
	}
}

func (w *Walk) choice(from calls.Walked, number int, to calls.Place) Choice {
	fork, _ := from.Place.Row()
	return Choice{number, w.choiceWord(fork, number, to), to}
}
