// A table, a variable, a call to another object.
package main

//extern twice
func twice(x int32) int32

var total int32 = 32
var rows = [4]int32{3, 4, 5, 6}

func Answer() int32 {
	for k := 0; k < 4; k++ {
		total += rows[k]
	}
	return twice(total) - 58
}
