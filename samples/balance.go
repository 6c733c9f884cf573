// Picks the server for a new connection. A client keeps its server by the hash of its address; where
// that server is down or drained, the next one in the table that takes connections stands in.

type server struct {
	weight int // its share of the table; 0: no new connections
	up     bool
	picked int // how often it was chosen
}

// how many servers there are, and how many slots the table has
var count int
var size int

func add(list []server, weight int) []server {
	var s server
	s.weight = weight
	s.up = true
	count = count + 1
	return append(list, s)
}

func pool() []server {
	var list []server
	list = add(list, 4)
	list = add(list, 3)
	list = add(list, 0)
	list = add(list, 1)
	return list
}

// A server has as many slots as its weight says. They are dealt in rounds, so that the clients of a server
// that fails spread over the others.
func deal(list []server) []int {
	var table []int
	round := 0
	dealt := true
	for dealt {
		dealt = false
		for i := 0; i < count; i = i + 1 {
			if list[i].weight > round {
				table = append(table, i)
				size = size + 1
				dealt = true
			}
		}
		round = round + 1
	}
	return table
}

var servers []server = pool()
var slots []int = deal(servers)

// the answer when no server can take the connection
var nobody int = -1

// a client with this many connections open is taken for many behind one address
var shared int = 64

func usable(number int) bool {
	return servers[number].up && servers[number].weight > 0
}

// Mixes the bits of x; the result is not negative.
func hash(x int) int {
	h := (x ^ x>>31) * 0x1E3779B97F4A7C15
	h = (h ^ h>>29) * 0x3F58476D1CE4E5B9
	h = h ^ h>>32
	return h & 0x7FFFFFFFFFFFFFFF
}

// The number of the server for a connection from the address and port of a client that has so many
// connections open already, or -1.
func choose(client, port, open int) int {
	if size == 0 {
		return nobody
	}
	key := client
	if open >= shared {
		key = client ^ port<<32
	}
	slot := hash(key) % size
	for i := 0; i < size; i = i + 1 {
		number := slots[(slot+i)%size]
		if usable(number) {
			servers[number].picked = servers[number].picked + 1
			return number
		}
	}
	return nobody
}

func known(number int) bool {
	return number >= 0 && number < count
}

// The result of a health check: up is 0 when the server does not answer. Returns 1 if there is such a server.
func health(number, up int) int {
	if !known(number) {
		return 0
	}
	servers[number].up = bool(up)
	return 1
}

// Gives a server no new connections. The table stays as it is, so that clients of other servers keep theirs.
func drain(number int) int {
	if !known(number) {
		return 0
	}
	servers[number].weight = 0
	return 1
}

// How often a server was chosen, or -1.
func picked(number int) int {
	if known(number) {
		return servers[number].picked
	}
	return nobody
}
