package main

import (
	"runtime"
	"sync"
	"sync/atomic"
)

// besideBusy measures beside as many threads that are busy with nothing as there are processors. They don't take those
// that Go's scheduler has for the others: it gets as many more.
func besideBusy(measure func()) {
	processors := runtime.NumCPU()
	before := runtime.GOMAXPROCS(0)
	runtime.GOMAXPROCS(before + processors)
	var isOver atomic.Bool
	var left sync.WaitGroup
	for i := 0; i < processors; i++ {
		left.Add(1)
		go func() {
			runtime.LockOSThread()
			for !isOver.Load() {
			}
			left.Done()
		}()
	}
	measure()
	isOver.Store(true)
	left.Wait()
	runtime.GOMAXPROCS(before)
}
