// cascadia measures selecting with Go's cascadia, for selecting.py. It reads a page from standard input.
//
//	cascadia ROUNDS SELECTOR..    a line for each: the median time in microseconds of processor time, and the number of elements
//	cascadia --loop ROUNDS        the same for the loop over the rows of a table
package main

import (
	"fmt"
	"os"
	"sort"
	"strconv"
	"syscall"
	"time"

	"github.com/andybalholm/cascadia"
	"golang.org/x/net/html"
)

func processorTime() time.Duration {
	var used syscall.Rusage
	if err := syscall.Getrusage(syscall.RUSAGE_SELF, &used); err != nil {
		panic(err)
	}
	return time.Duration(used.Utime.Nano() + used.Stime.Nano())
}

// measure prints the median time of a call, and its last result.
func measure(rounds int, call func() int) {
	times, count, begun := []float64{}, 0, time.Now()
	for i := 0; i < rounds && time.Since(begun) < 10*time.Second; i++ {
		start := processorTime()
		count = call()
		times = append(times, float64(processorTime()-start)/1000)
	}
	sort.Float64s(times)
	fmt.Println(times[len(times)/2], count)
}

func rows(page *html.Node) func() int {
	row, data := cascadia.MustCompile("tr"), cascadia.MustCompile("td")
	return func() int {
		count := 0
		for _, found := range row.MatchAll(page) {
			count += len(data.MatchAll(found))
		}
		return count
	}
}

func main() {
	words := os.Args[1:]
	isLoop := words[0] == "--loop"
	if isLoop {
		words = words[1:]
	}
	rounds, err := strconv.Atoi(words[0])
	if err != nil {
		panic(err)
	}
	page, err := html.Parse(os.Stdin)
	if err != nil {
		panic(err)
	}
	if isLoop {
		measure(rounds, rows(page))
	}
	for _, text := range words[1:] {
		selector := cascadia.MustCompile(text)
		measure(rounds, func() int { return len(selector.MatchAll(page)) })
	}
}
