package pool_test

import (
	"errors"
	"fmt"
	"log"

	"yimakohe.example/pool"
)

func check(err error) {
	if err != nil {
		log.Fatal(err)
	}
}

// openTwo opens the tables of two servers alike: at most 100 returns, and no totals before least are entered.
func openTwo(sheet *pool.Sheet, least uint32) (tables [2]*pool.Table) {
	for own := range tables {
		var err error
		tables[own], err = pool.Open(2, uint32(own), sheet, 100, least)
		check(err)
	}
	return tables
}

// file has each server take its share of a return with the pair that its keeper types, and gives their round-one messages: server
// 1 is the faster one here, and its message stands first.
func file(tables [2]*pool.Table, shares [][]byte, typed ...pool.Pair) (ones [][]byte) {
	for own := 1; own >= 0; own-- {
		one, err := tables[own].Share(shares[own], typed[own])
		check(err)
		ones = append(ones, one)
	}
	return ones
}

// judge takes a return through both rounds, up to the verdict. The messages of a round are handed in as they arrive.
func judge(tables [2]*pool.Table, id uint32, ones [][]byte) {
	var twos [][]byte
	for own := 1; own >= 0; own-- {
		two, err := tables[own].RoundOne(id, ones)
		check(err)
		twos = append(twos, two)
	}
	for own, table := range tables {
		accepted, err := table.RoundTwo(id, twos)
		fmt.Println("return", id, "server", own, "accepted", accepted, err)
	}
}

// join closes the tables and joins their totals messages, in server order.
func join(tables [2]*pool.Table, sheet *pool.Sheet) pool.Totals {
	var messages [2][]byte
	for own, table := range tables {
		var err error
		messages[own], err = table.Close()
		check(err)
	}
	totals, err := pool.Join(2, sheet, 100, messages[:])
	check(err)
	return totals
}

// A whole pool in one program: two servers, two returns, and no totals before both are entered. A server that is refused a call
// tells the others, and they drop the return. Here every call is done.
func Example() {
	sheet, err := pool.NewSheet(pool.YesNo(), pool.UpTo(200))
	check(err)
	tables := openTwo(sheet, 2)

	// Both returns are under way at once.
	workshop := pool.Client{Sheet: sheet, Servers: 2}
	var ones [2][][]byte
	for id, values := range [][]uint32{{1, 30}, {0, 12}} {
		shares, err := workshop.Make(uint32(id), values)
		check(err)
		pair, err := sheet.DrawPair(nil) // servers in different hands add their parts: AddPairs
		check(err)
		ones[id] = file(tables, shares, pair, pair)
	}
	// The last one gets its verdict first. Each server stores its table with the verdict and tells it to the other.
	judge(tables, 1, ones[1])
	judge(tables, 0, ones[0])
	for own, table := range tables {
		fmt.Println("server", own, "has", table.Waiting())
	}
	// Both have told that they accepted both returns: both enter them.
	for _, table := range tables {
		check(table.Enter(0))
		check(table.Enter(1))
	}
	fmt.Printf("%+v\n", join(tables, sheet))
	// Output:
	// return 1 server 0 accepted true <nil>
	// return 1 server 1 accepted true <nil>
	// return 0 server 0 accepted true <nil>
	// return 0 server 1 accepted true <nil>
	// server 0 has [{0 awaits entry} {1 awaits entry}]
	// server 1 has [{0 awaits entry} {1 awaits entry}]
	// {Accepted:2 Lines:[{Column:1 Option:0 Total:1} {Column:2 Option:0 Total:42}]}
}

// With fewer returns entered than the least count there are no totals, and the table goes on.
func ExampleTable_Close() {
	sheet, err := pool.NewSheet(pool.YesNo())
	check(err)
	table, err := pool.Open(2, 0, sheet, 100, 10)
	check(err)
	if _, err := table.Close(); errors.Is(err, pool.ErrFew) {
		fmt.Println("no totals yet: take more returns, and close again")
	}
	// Output: no totals yet: take more returns, and close again
}
