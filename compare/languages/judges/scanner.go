// The judge of Go: go/scanner and go/constant.
package main

import (
	"bufio"
	"fmt"
	"go/constant"
	"go/scanner"
	"go/token"
	"math"
	"os"
	"strings"
)

type number struct {
	kind    token.Token
	literal string
	at      int
}

// Returns the numbers of a text, at most some, and whether there is no error up to there.
func numbers(text string, most int) (found []number, ok bool) {
	var it scanner.Scanner
	file := token.NewFileSet().AddFile("", -1, len(text))
	it.Init(file, []byte(text), func(token.Position, string) {}, 0)
	for most > 0 {
		at, kind, literal := it.Scan()
		if kind == token.EOF {
			break
		} else if kind == token.INT || kind == token.FLOAT || kind == token.IMAG {
			found = append(found, number{kind, literal, file.Offset(at)})
		}
		most--
	}
	return found, it.ErrorCount == 0
}

func value(it number) string {
	if it.kind == token.IMAG {
		return ""
	}
	value := constant.MakeFromLiteral(it.literal, it.kind, 0)
	if it.kind == token.INT {
		return value.ExactString()
	}
	float, _ := constant.Float64Val(value)
	return fmt.Sprintf("d%016x", math.Float64bits(float))
}

func main() {
	lines := bufio.NewScanner(os.Stdin)
	out := bufio.NewWriter(os.Stdout)
	for lines.Scan() {
		if len(os.Args) == 1 {
			found, ok := numbers(lines.Text(), 1)
			if ok && len(found) == 1 {
				fmt.Fprintln(out, len(found[0].literal), value(found[0]))
			} else {
				fmt.Fprintln(out, "-")
			}
			continue
		}
		text, _ := os.ReadFile(lines.Text())
		found, ok := numbers(string(text), math.MaxInt)
		if !ok {
			fmt.Fprintln(out, "-", lines.Text())
			continue
		}
		for _, it := range found {
			line, _, _ := strings.Cut(string(text[it.at:]), "\n")
			fmt.Fprintln(out, len(it.literal), line)
		}
	}
	out.Flush()
}
