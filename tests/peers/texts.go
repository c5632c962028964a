// Reads and writes a session description so many times by pion/sdp: texts FILE TIMES.
package main

import (
	"fmt"
	"os"
	"strconv"

	"github.com/pion/sdp/v3"
)

func main() {
	text, err := os.ReadFile(os.Args[1])
	if err != nil {
		panic(err)
	}
	times, err := strconv.Atoi(os.Args[2])
	if err != nil {
		panic(err)
	}
	written := 0
	for i := 0; i < times; i++ {
		var description sdp.SessionDescription
		if err := description.Unmarshal(text); err != nil {
			panic(err)
		}
		again, err := description.Marshal()
		if err != nil {
			panic(err)
		}
		written += len(again)
	}
	fmt.Println(written)
}
