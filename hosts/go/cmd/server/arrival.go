package main

// arrival is what has come of a step of a return: one message of each server, in the order in which they came. An empty message
// says that its server can not go on.
type arrival struct {
	messages [][]byte
	from     [servers]bool
}

// has says whether the message of a server has come.
func (a *arrival) has(server uint) bool { return a.from[server] }

// add puts the message of a server, which has not come yet, after those that have.
func (a *arrival) add(server uint, message []byte) {
	a.from[server] = true
	a.messages = append(a.messages, message)
}

// whole says whether the messages of all servers have come.
func (a *arrival) whole() bool { return len(a.messages) == servers }

// stops says whether a server can not go on.
func (a *arrival) stops() bool {
	for _, message := range a.messages {
		if len(message) == 0 {
			return true
		}
	}
	return false
}
