# Binds names in the naming contexts of `tradesrv names` by Combat, a stock ORB for Tcl, with the standard's own IDL as
# data.
#
#   names.tcl IDL ROOT CONTEXT NAME REF ..
#
# A context is made below the root, and each object is bound in it under its name. Then the names are resolved, and the
# context's bindings are listed, the first one from the reply and the others from the iterator. All of it is one session,
# since Combat makes its calls over one connection. The status is 1 where a call fails.

package require combat

# A name of so many components, each without a kind.
proc name {args} {
    return [lmap id $args {list id $id kind {}}]
}

proc bind {root context objects} {
    set made [$root bind_new_context [name $context]]
    puts "context [corba::object_to_string $made]"
    foreach {id reference} $objects {
        $root bind [name $context $id] [corba::string_to_object $reference]
    }
    foreach {id reference} $objects {
        puts "$context/$id [corba::object_to_string [$root resolve [name $context $id]]]"
    }
    $made list 1 bindings iterator
    puts "in the reply [ids $bindings]"
    $iterator next_n 100 bindings
    puts "from the iterator [ids $bindings]"
    $iterator destroy
}

proc ids {bindings} {
    return [lmap binding $bindings {dict get [lindex [dict get $binding binding_name] end] id}]
}

set words [corba::init {*}$argv]
if {[llength $words] < 5 || [llength $words] % 2 == 0} {
    puts stderr "usage: names.tcl IDL ROOT CONTEXT NAME REF .."
    exit 2
}
source [lindex $words 0]
set root [corba::string_to_object [lindex $words 1]]
if {[catch {
    # (of a corbaloc Combat doesn't know the interface before it asks for it)
    $root _is_a IDL:omg.org/CosNaming/NamingContext:1.0
    bind $root [lindex $words 2] [lrange $words 3 end]
} why]} {
    puts stderr $why
    exit 1
}
