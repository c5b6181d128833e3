# A query to a trader by Combat, a stock ORB for Tcl, with the standard's own IDL as data.
#
#   query.tcl IDL REF TYPE CONSTRAINT PREFERENCE
#
# The first offer comes with the reply, and the others one by one from its iterator. What each of these gives is
# printed. The status is 1 where a call fails.

package require combat

proc show {offers} {
    foreach offer $offers {
        array set at $offer
        puts "offer [corba::object_to_string $at(reference)]"
        foreach property $at(properties) {
            array set is $property
            puts "  $is(name) [lindex $is(value) 1]"
        }
    }
}

proc query {lookup type constraint preference} {
    $lookup query $type $constraint $preference {} {all {}} 1 offers iterator limits
    puts "in the reply"
    show $offers
    set more [expr {$iterator ne "0"}]
    while {$more} {
        set more [$iterator next_n 1 offers]
        puts "from the iterator"
        show $offers
    }
    if {$iterator ne "0"} {
        $iterator destroy
    }
}

set words [corba::init {*}$argv]
if {[llength $words] != 5} {
    puts stderr "usage: query.tcl IDL REF TYPE CONSTRAINT PREFERENCE"
    exit 2
}
source [lindex $words 0]
set lookup [corba::string_to_object [lindex $words 1]]
if {[catch {query $lookup {*}[lrange $words 2 4]} why]} {
    puts stderr $why
    exit 1
}
