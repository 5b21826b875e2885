package mark

import (
	"fmt"
	"strings"
	"testing"

	"zesthull/internal/script"
)

// unmarked takes the marks @ out of a text, and gives the place of each, from 1 on.
func unmarked(marked string) (text string, places []int) {
	parts := strings.Split(marked, "@")
	for _, part := range parts[:len(parts)-1] {
		text += part
		places = append(places, len(text)+1)
	}
	return text + parts[len(parts)-1], places
}

// marked marks a file or a list of statements.
func marked(text string) *Result { return markedAs("x.go", text) }

func markedAs(name, text string) *Result { return Script(script.Read(name, []byte(text))) }

// A findingCase is a text with @ before the place of each finding, and the messages, with a line end between them. Other
// places follow their message in parentheses.
type findingCase struct{ text, messages string }

func (c findingCase) try(t *testing.T) *Result {
	t.Helper()
	text, places := unmarked(c.text)
	r := marked(text)
	var messages []string
	var at []int
	for _, f := range r.Findings {
		at = append(at, f.Position)
		message := f.Message
		if f.Other != nil {
			message += fmt.Sprintf(" (%s at %d)", f.Other.Message, f.Other.Position)
		}
		messages = append(messages, message)
	}
	if got := strings.Join(messages, "\n"); got != c.messages || fmt.Sprint(at) != fmt.Sprint(places) {
		t.Errorf("%s\nhas %q at %d,\nnot %q at %d", text, got, at, c.messages, places)
	}
	return r
}

func tryAll(t *testing.T, kind Kind, cases []findingCase) {
	t.Helper()
	for _, c := range cases {
		for _, f := range c.try(t).Findings {
			if f.Kind != kind {
				t.Errorf("%s: %s is of kind %d, not %d", c.text, f.Message, f.Kind, kind)
			}
		}
	}
}
