# An evaluator of dynamic properties by Combat, a stock ORB for Tcl, with the standard's own IDL as data.
#
#   evaluator.tcl IDL REGISTER TYPE NAME
#
# It exports an offer of this type, whose property of this name is a dynamic unsigned long, and prints the offer's
# identifier. Then it answers each evaluation: 60 the first time, and one more each time, till it is ended.

package require combat

itcl::class Evaluator {
    inherit PortableServer::ServantBase
    private variable value 59

    public method _Interface {} {
        return ::CosTradingDynamic::DynamicPropEval
    }

    public method evalDP {name type extra} {
        return [list $type [incr value]]
    }
}

set words [corba::init {*}$argv]
if {[llength $words] != 4} {
    puts stderr "usage: evaluator.tcl IDL REGISTER TYPE NAME"
    exit 2
}
lassign $words idl register type name
source $idl
set poa [corba::resolve_initial_references RootPOA]
set evaluator [$poa id_to_reference [$poa activate_object [Evaluator #auto]]]
[$poa the_POAManager] activate

set dynamic [list eval_if $evaluator returned_type {unsigned long} extra_info {null {}}]
set property [list name $name value [list [corba::type of ::CosTradingDynamic::DynamicProp] $dynamic]]
if {[catch {[corba::string_to_object $register] export $evaluator $type [list $property]} id]} {
    puts stderr $id
    exit 1
}
puts "id $id"
flush stdout
vwait forever
