# The judge of Tcl: its `expr`.
proc judge text {
    if {[catch {expr $text} value] || ![string is double -strict $value]} {
        return -
    }
    # An expression is one token if it is none with a blank.
    for {set at 1} {$at < [string length $text]} {incr at} {
        if {![catch {expr [string range $text 0 $at-1]\ [string range $text $at end]}]} {
            return -
        }
    }
    return "+ [expr {[string is entier -strict $value] ? $value : "d[binary encode hex [binary format Q $value]]"}]"
}

while {[gets stdin text] >= 0} {
    puts [judge $text]
}
