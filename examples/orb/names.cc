// Naming contexts by omniORB, a stock ORB, over its stubs of the standard's CosNaming.idl.
//
//   names ROOT REF
//
// ROOT is the root context's reference, REF an object's. In a new context it binds the object under two names, resolves
// one of them, lists the context by batches of one and unbinds all again. It prints what it finds, and ends with status
// 1 where a call fails.

#include <iostream>
#include <omniORB4/CORBA.h>
#include <omniORB4/Naming.hh>

static CosNaming::Name name_of(const char *id, const char *kind) {
    CosNaming::Name name;
    name.length(1);
    name[0].id = id;
    name[0].kind = kind;
    return name;
}

static void print(const CosNaming::Binding &binding) {
    std::cout << "binding " << binding.binding_name[0].id << ' ' << binding.binding_name[0].kind << '\n';
}

// Lists a context, the first binding in the reply and the others by the iterator.
static void list(CosNaming::NamingContext_ptr context) {
    CosNaming::BindingList_var bindings;
    CosNaming::BindingIterator_var rest;
    context->list(1, bindings.out(), rest.out());
    for (CORBA::ULong i = 0; i < bindings->length(); i++) {
        print(bindings[i]);
    }
    if (CORBA::is_nil(rest)) {
        return;
    }
    while (rest->next_n(1, bindings.out())) {
        print(bindings[0]);
    }
    rest->destroy();
}

static void use(CORBA::ORB_ptr orb, char **words) {
    CORBA::Object_var found = orb->string_to_object(words[1]);
    CORBA::Object_var object = orb->string_to_object(words[2]);
    CosNaming::NamingContext_var root = CosNaming::NamingContext::_narrow(found);
    CosNaming::NamingContext_var office = root->bind_new_context(name_of("offices", ""));
    office->bind(name_of("laser", "printer"), object);
    office->bind(name_of("plotter", "printer"), object);
    found = office->resolve(name_of("laser", "printer"));
    CORBA::String_var reference = orb->object_to_string(found);
    std::cout << "resolved " << reference << '\n';
    list(office);
    try {
        office->resolve(name_of("laser", ""));
    } catch (const CosNaming::NamingContext::NotFound &e) {
        std::cout << "not found: " << e.rest_of_name[0].id << '\n';
    }
    office->unbind(name_of("laser", "printer"));
    office->unbind(name_of("plotter", "printer"));
    office->destroy();
    root->unbind(name_of("offices", ""));
}

int main(int count, char **words) {
    CORBA::ORB_var orb = CORBA::ORB_init(count, words);
    if (count != 3) {
        std::cerr << "usage: names ROOT REF\n";
        return 2;
    }
    try {
        use(orb, words);
    } catch (const CORBA::Exception &e) {
        std::cerr << e._name() << '\n';
        return 1;
    }
    return 0;
}
