// Nesting of blocks: variables of each level, loops in loops, and the deepest nesting that a file can have.

// Each block sees the variables of those around it.
func levels(a int) int {
	b := a + 1
	{
		c := b + 1
		{
			d := c + 1
			{
				b = a + b + c + d
			}
		}
	}
	return b
}

// break and continue belong to the innermost loop. Counts the pairs i < k up to n with i + k odd.
func loops(n int) int {
	pairs := 0
	i := 0
	for {
		i = i + 1
		if i > n {
			break
		}
		for k := i + 1; ; k = k + 1 {
			if k > n {
				break
			} else if (i+k)%2 == 0 {
				continue
			} else {
				pairs = pairs + 1
			}
		}
	}
	return pairs
}

// With these 58 blocks the operands of the assignment stand at depth 64; one block more is refused.
func deepest(n int) int {
	d := 0
	{ { { { { { { { { {
	{ { { { { { { { { {
	{ { { { { { { { { {
	{ { { { { { { { { {
	{ { { { { { { { { {
	{ { { { { { { {
	d = n
	} } } } } } } }
	} } } } } } } } } }
	} } } } } } } } } }
	} } } } } } } } } }
	} } } } } } } } } }
	} } } } } } } } } }
	return d
}
