package main

import (
	"fmt"
	"sort"
	"time"
)

const (
	repeatCount   = 5
	repeatSeconds = 0.20
)

// figure is what is measured: the first columns of a line.
type figure struct {
	peer, scenario, name, unit string
}

// report writes the line of a figure, as Rust's peers do.
func report(f figure, samples []float64, count int64) {
	sort.Float64s(samples)
	best := samples[0]
	if f.unit != "ns" {
		best = samples[len(samples)-1]
	}
	median := samples[len(samples)/2]
	fmt.Printf("%s\t%s\t%s\t%s\t%.3f\t%.3f\t%d\n", f.peer, f.scenario, f.name, f.unit, best, median, count)
}

// repeats runs once with as many values, up to most, as a first, shorter run allows. It gives that number and each
// result, without that of the first run.
func repeats[R any](most int64, once func(count int64) R) (int64, []R) {
	few := most / 100
	if few < 1_000 {
		few = 1_000
	}
	if few > most {
		few = most
	}
	start := time.Now()
	once(few)
	projected := time.Since(start).Seconds() * float64(most) / float64(few)
	count := most
	if projected > repeatSeconds {
		count = int64(float64(most) * repeatSeconds / projected)
	}
	if count < few {
		count = few
	}
	var all []R
	for i := 0; i < repeatCount; i++ {
		all = append(all, once(count))
	}
	return count, all
}

// cost is in nanoseconds for each of each operations a value.
func cost(peer, scenario, name string, most, each int64, once func(count int64) time.Duration) {
	count, times := repeats(most, once)
	var samples []float64
	for _, t := range times {
		samples = append(samples, float64(t.Nanoseconds())/float64(count*each))
	}
	report(figure{peer, scenario, name, "ns"}, samples, count)
}

// rate is in millions of values a second.
func rate(peer, scenario, name string, most int64, once func(count int64) time.Duration) {
	count, times := repeats(most, once)
	var samples []float64
	for _, t := range times {
		samples = append(samples, float64(count)/t.Seconds()/1e6)
	}
	report(figure{peer, scenario, name, "M/s"}, samples, count)
}

func sumBelow(count int64) uint64 { return uint64(count) * uint64(count-1) / 2 }

func check(holds bool, what string) {
	if !holds {
		panic(what)
	}
}
