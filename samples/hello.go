// The smallest script of use: every new connection goes to server 1.

func choose() int {
	return 1
}
