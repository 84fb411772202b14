// Workshop makes one return and sends each server its share.
//
//	workshop -sheet '17 19 8' -id 7 -values '1 40' 127.0.0.1:7000 127.0.0.1:7001
//
// The servers' addresses stand in server order. The value of a point is written as x:y, say 34:5. With -seeds all servers but the first
// get a seed in place of a share. The example sends shares and seeds in the clear, on one machine: a pool encrypts them.
package main

import (
	"flag"
	"fmt"
	"log"
	"net"
	"strings"

	"yimakohe.example/pool"
	"yimakohe.example/pool/internal/frame"
)

func main() {
	log.SetFlags(0)
	log.SetPrefix("workshop: ")
	sheetText := flag.String("sheet", "", "the sheet's bytes, in decimal")
	var id frame.Number
	flag.Var(&id, "id", "the return's id, given to no other return")
	valueText := flag.String("values", "", "one value for each column; x:y for a point")
	seeds := flag.Bool("seeds", false, "send all servers but the first a seed of 32 bytes in place of a share")
	flag.Parse()
	if err := run(*sheetText, uint32(id), *valueText, *seeds, flag.Args()); err != nil {
		log.Fatal(err)
	}
}

func run(sheetText string, id uint32, valueText string, seeds bool, servers []string) error {
	b, err := frame.Bytes(sheetText)
	if err != nil {
		return err
	}
	sheet, err := pool.ReadSheet(b)
	if err != nil {
		return err
	}
	values, err := readValues(sheet.Columns(), valueText)
	if err != nil {
		return err
	}
	client := pool.Client{Sheet: sheet, Servers: uint32(len(servers))}
	making := client.Make
	if seeds {
		making = client.MakeSeeded
	}
	shares, err := making(id, values)
	if err != nil {
		return err
	}
	for k, address := range servers {
		if err := send(address, shares[k]); err != nil {
			return fmt.Errorf("server %d: %w", k, err)
		}
	}
	return nil
}

// readValues reads the values that stand in a text, x:y for a point.
func readValues(columns []pool.Column, text string) ([]uint32, error) {
	var values []uint32
	for k, word := range strings.Fields(text) {
		numbers, err := frame.Numbers(strings.Replace(word, ":", " ", 1), 32)
		if err != nil {
			return nil, err
		}
		if !strings.Contains(word, ":") {
			values = append(values, numbers...)
			continue
		}
		if k >= len(columns) || len(numbers) != 2 {
			return nil, fmt.Errorf("%q is no point x:y of a column", word)
		}
		value, err := columns[k].PointValue(numbers[0], numbers[1])
		if err != nil {
			return nil, fmt.Errorf("%q: %w", word, err)
		}
		values = append(values, value)
	}
	return values, nil
}

// send hands a server its share and waits until the server has it.
func send(address string, share []byte) error {
	conn, err := net.Dial("tcp", address)
	if err != nil {
		return err
	}
	defer conn.Close()
	if err := frame.Write(conn, share); err != nil {
		return err
	}
	_, err = frame.Read(conn)
	return err
}
