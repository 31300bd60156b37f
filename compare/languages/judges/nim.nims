# The judge of Nim: its parser.
import std/[macros, strutils]

# In brackets, a sign belongs to the number: `-1` is a literal, and `- 1` a call. Nim crashes on `0b1f128` and `1'f128`.
proc judge(text: string): string =
  let small = text.toLowerAscii
  if small.endsWith("f128") and ('\'' in small or "0x" notin small): return "-"
  try:
    let list = parseExpr("[" & text & "]")
    if list.kind == nnkBracket and list.len == 1:
      let node = list[0]
      case node.kind
      of nnkIntLit .. nnkInt64Lit: return "+ " & $node.intVal
      of nnkUIntLit .. nnkUInt64Lit: return "+ " & $cast[uint64](node.intVal)
      of nnkFloat32Lit: return "+ " & $node.floatVal & "f"
      of nnkFloatLit, nnkFloat64Lit: return "+ d" & toHex(cast[uint64](node.floatVal))
      else: discard
  except ValueError: discard
  "-"

for text in readAllFromStdin().strip(leading = false, chars = {'\n'}).split('\n'):
  echo judge(text)
