// Scopes and shadowing: a name means what the innermost scope that declares it says, and a declaration
// takes effect only after its own type and value.

var n int = 1

// A parameter hides the global.
func parameter(n int) int {
	return n
}

// A parameter may have the name of its function, which it hides.
func same(same int) int {
	return same
}

// The n on the right is the global one; the new n is declared after it.
func local(a int) int {
	n := n + a
	return n
}

// An if and a loop open a scope round their init, and their blocks one more inside it.
func layers(n int) int {
	sum := 0
	if n := n * 10; n > 50 {
		n := n + 1
		sum = n
	} else {
		sum = n
	}
	for n := 0; n < 3; n = n + 1 {
		n := n * 100
		sum = sum + n
	}
	return sum + n
}

// Some names here are old and some new: sum is assigned, twice is declared.
func mixed(a int) int {
	sum := a
	sum, twice := sum+1, sum*2
	return sum + twice
}

// The names that every script begins with can be hidden too; the block's end brings them back.
func predeclared(a int) int {
	{
		type int bool
		var true int = a > 0
		if true {
			a = -a
		}
	}
	var b int = a
	return b
}

// Writes to the global: no scope of this function hides it.
func global(a int) int {
	n = n + a
	return n
}
