package main

import (
	"os"
	"regexp"
	"strings"
	"testing"
)

func TestUsage(t *testing.T) {
	for _, args := range [][]string{{}, {"marks"}, {""}, {"-x"}} {
		if r := with("", args...); r.code != 2 || r.out != "" || !strings.Contains(r.err, "zesthull mark") {
			t.Errorf("%q: %+v", args, r)
		}
	}
	for _, word := range []string{"-h", "-help", "--help", "help"} {
		if r := with("", word); r.code != 0 || r.err != "" || !strings.Contains(r.out, "zesthull mark") {
			t.Errorf("%s: %+v", word, r)
		}
	}
}

// The usage has every command and every flag.
func TestUsageIsWhole(t *testing.T) {
	out := with("", "-help").out
	for _, word := range []string{"mark", "rows", "walk", "-version", "-v ", "-json", "-log FILE", "-list", "-by CHOICES", "-limit N", "-func NAME", "-e TEXT", "FILE|DIR|-"} {
		if !strings.Contains(out, word) {
			t.Errorf("the usage doesn't name %s", word)
		}
	}
}

// The version is that of the newest entry of CHANGELOG.md.
func TestVersion(t *testing.T) {
	changes, err := os.ReadFile("../../../CHANGELOG.md")
	if err != nil {
		t.Fatal(err)
	}
	newest := regexp.MustCompile(`(?m)^## (\S+)`).FindSubmatch(changes)
	if newest == nil {
		t.Fatal("CHANGELOG.md has no entry")
	}
	for _, word := range []string{"-version", "--version", "version"} {
		with("", word).expect(t, word, 0, "zesthull "+string(newest[1])+"\n", false)
	}
}

func TestWrongFlags(t *testing.T) {
	for _, args := range [][]string{
		{"mark"}, {"mark", "-v"}, {"mark", "-x", "-"}, {"mark", "-log"}, {"mark", "-v=maybe", "-"},
		{"rows"}, {"rows", "-list"}, {"rows", "-x", "-"}, {"rows", "-func"}, {"rows", "-", "-"}, {"rows", "-e", "return", "-"}, {"rows", "-e"},
		{"walk"}, {"walk", "-by", "1"}, {"walk", "-x", "-"}, {"walk", "-func"}, {"walk", "-", "-"}, {"walk", "-e", "return", "-"}, {"walk", "-e"},
	} {
		if r := with("", args...); r.code != 2 || r.out != "" || r.err == "" {
			t.Errorf("%q: %+v", args, r)
		}
	}
}
