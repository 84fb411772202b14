// Package pool is the figures pool's core for Go programs, over the C functions of pool.h.
//
// A return is one value for each column of a sheet. A workshop splits it into shares (Client.Make), one for each
// server; a share alone says nothing. In place of shares it can send all servers but one short seeds (Client.MakeSeeded). The servers
// check the form of a return together, in two rounds of short messages, enter what all of them accept into their totals (Table), and
// publish these (Join), never those of fewer returns than a least count. From the totals of a column of points comes the line that
// fits them best (FitLine).
//
// Up to eight returns are under way in a table at a time, so that servers far apart need not wait for one another's messages.
//
// The program that uses the package carries the messages. It hands those of a round in as they arrive, in any order, one of
// each server. It encrypts what it sends, knows who is at the other end, and gives each return an id of its own. It has every
// server take a return with the same pair (Pair); where one slips, none judges the return, and it is dropped and made anew
// (ErrUnequal). It has the servers tell one another their verdicts, each once its table is stored, and has all enter what all accepted
// (Table.Enter), or all drop it: so a server that stops between the two goes on later and comes to the same totals. It keeps a table
// as it keeps a share while a return waits, copies of it included.
//
// A call that is refused gives an error that wraps a Refusal (ErrDecided and others) and says what to do; it has changed nothing.
//
// A program in another module takes a copy of the package with the C library in it, which hosts/go/vendor makes, and names it in its
// go.mod:
//
//	require yimakohe.example/pool v0.0.0
//
//	replace yimakohe.example/pool => ./pool
package pool
