package main

import (
	"fmt"
	"io"
	"os"
	"sync/atomic"
	"syscall"
	"time"
	"unsafe"
)

const (
	progressAfter = 2 * time.Second
	progressEvery = 200 * time.Millisecond
)

// progress tells on a terminal how many scripts of all are marked, where that takes longer than a moment. The function that
// it returns ends it.
func progress(errors io.Writer, done *atomic.Int64, all int) (stop func()) {
	file, ok := errors.(*os.File)
	if !ok || !isTerminal(file) {
		return func() {}
	}
	ended, over := make(chan bool), make(chan bool)
	go func() {
		defer close(over)
		wait := time.After(progressAfter)
		shown := false
		for {
			select {
			case <-wait:
				fmt.Fprintf(file, "\r%d of %d files", done.Load(), all)
				shown = true
				wait = time.After(progressEvery)
			case <-ended:
				if shown {
					fmt.Fprint(file, "\r\x1b[K")
				}
				return
			}
		}
	}()
	return func() { close(ended); <-over }
}

// isTerminal asks the system for the terminal's settings, which nothing else has.
func isTerminal(file *os.File) bool {
	var settings syscall.Termios
	_, _, failed := syscall.Syscall(syscall.SYS_IOCTL, file.Fd(), syscall.TCGETS, uintptr(unsafe.Pointer(&settings)))
	return failed == 0
}
