package pool_test

import (
	"errors"
	"fmt"
	"math/big"

	"yimakohe.example/pool"
)

// enterPoint takes a return with one point from the workshop to its entry at both servers.
func enterPoint(tables [2]*pool.Table, sheet *pool.Sheet, id, x, y uint32) {
	value, err := sheet.Columns()[0].PointValue(x, y)
	check(err)
	workshop := pool.Client{Sheet: sheet, Servers: 2}
	shares, err := workshop.Make(id, []uint32{value})
	check(err)
	pair, err := sheet.DrawPair(nil)
	check(err)
	ones := file(tables, shares, pair, pair)
	var twos [2][]byte
	for own, table := range tables {
		twos[own], err = table.RoundOne(id, ones)
		check(err)
	}
	for _, table := range tables {
		_, err := table.RoundTwo(id, twos[:])
		check(err)
	}
	for _, table := range tables {
		check(table.Enter(id))
	}
}

// Hours on plate diameter: each return has one point, and from the totals comes the line.
func ExampleFitLine() {
	sheet, err := pool.NewSheet(pool.Point(6)) // x, the diameter in mm, and y, the hours: both below 64
	check(err)
	tables := openTwo(sheet, 4)
	for id, point := range [][2]uint32{{28, 2}, {34, 5}, {30, 3}, {42, 9}} {
		enterPoint(tables, sheet, uint32(id), point[0], point[1])
	}
	var messages [2][]byte
	for own, table := range tables {
		messages[own], err = table.Close()
		check(err)
	}
	totals, err := pool.Join(2, sheet, 100, messages[:])
	check(err)
	sums, err := totals.PointSums(sheet, 1)
	check(err)
	fmt.Printf("%d returns, %+v\n", totals.Accepted, sums)

	fit, err := pool.FitLine(2, sheet, 100, messages[:], 1)
	if errors.Is(err, pool.ErrNoLine) {
		fmt.Println("all plates have one diameter: no line")
		return
	}
	check(err)
	slope, intercept := fit.Fractions()
	fmt.Printf("%+v\n", [3]int64{fit.Determinant, fit.Slope, fit.Intercept})
	fmt.Println(fit, "exactly", intercept, slope)
	fmt.Println("hours on a plate of 38 mm:", fit.At(big.NewRat(38, 1)).FloatString(2))
	// Output:
	// 4 returns, {X:134 XX:4604 Y:19 XY:694}
	// [460 230 -5520]
	// y = -12 +0.5 x exactly -12/1 1/2
	// hours on a plate of 38 mm: 7.00
}
