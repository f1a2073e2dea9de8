// The test of a polynomial by restic's chunker, for the benchmark: built as a C archive.
package main

import "C"

import "github.com/restic/chunker"

//export restic_irreducible
func restic_irreducible(p C.ulonglong) C.int {
	if chunker.Pol(p).Irreducible() {
		return 1
	}
	return 0
}

func main() {}
