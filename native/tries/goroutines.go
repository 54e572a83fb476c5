// Four goroutines, each of which adds to a number of its own: neighbours in one line.
package main

import (
	"fmt"
	"sync"
)

type tally struct{ sum uint64 }

var counts [4]tally

func main() {
	var all sync.WaitGroup
	for i := range counts {
		all.Add(1)
		go func(own *tally) {
			defer all.Done()
			for n := 0; n < 20000; n++ {
				own.sum++
			}
		}(&counts[i])
	}
	all.Wait()
	fmt.Println("sum", counts[0].sum+counts[1].sum+counts[2].sum+counts[3].sum)
}
