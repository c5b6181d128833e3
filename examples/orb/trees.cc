// Offers with values of the types of trees.idl, by omniORB, a stock ORB, with the standard's own IDL (CosTrading.idl,
// CosTradingRepos.idl).
//
//   trees LOOKUP
//
// For either type it adds a service type with a property of it, exports an offer, and prints the value that it has
// where the offer is described, and where a query finds it. It ends with status 1 where a TypeCode or a value isn't the
// one that was sent, or a call fails.

#include "trees.hh"
#include <COS/CosTrading.hh>
#include <COS/CosTradingRepos.hh>
#include <iostream>

typedef CosTradingRepos::ServiceTypeRepository Repository;

// What is to be known of a property.
struct Sent {
    const char *type;
    const char *property;
    CORBA::Any value;
};

struct Trader {
    CosTrading::Lookup_var lookup;
    CosTrading::Register_var registers;
    CosTradingRepos::ServiceTypeRepository_var types;
};

static void print(const Tree &tree) {
    std::cout << tree.name;
    for (CORBA::ULong i = 0; i < tree.branches.length(); i++) {
        std::cout << (i ? " " : "(");
        print(tree.branches[i]);
    }
    std::cout << (tree.branches.length() ? ")" : "");
}

static bool same(const Tree &one, const Tree &other) {
    bool yes = strcmp(one.name, other.name) == 0 && one.branches.length() == other.branches.length();
    for (CORBA::ULong i = 0; yes && i < one.branches.length(); i++) {
        yes = same(one.branches[i], other.branches[i]);
    }
    return yes;
}

static bool same(const Point &one, const Point &other) { return one.x == other.x && one.y == other.y; }

static bool same(const CORBA::Any &one, const CORBA::Any &other) {
    const Tree *tree, *another_tree;
    const Line *line, *another_line;
    if (one >>= tree) {
        return (other >>= another_tree) && same(*tree, *another_tree);
    }
    return (one >>= line) && (other >>= another_line) && same(line->begin, another_line->begin) &&
           same(line->end, another_line->end);
}

static bool same(CORBA::TypeCode_ptr one, CORBA::TypeCode_ptr other) { return one->equal(other); }

static void print(const CORBA::Any &value) {
    const Tree *tree;
    const Line *line;
    if (value >>= tree) {
        print(*tree);
    } else if (value >>= line) {
        std::cout << line->begin.x << ',' << line->begin.y << " to " << line->end.x << ',' << line->end.y;
    } else {
        std::cout << "of another type";
    }
}

// Prints what came of it, and tells whether it is what was sent.
static bool print(const char *what, const Sent &sent, const CosTrading::PropertySeq &properties) {
    CORBA::TypeCode_var code = sent.value.type();
    bool yes = false;
    std::cout << what << ' ' << sent.type << ' ';
    if (properties.length() == 1) {
        CORBA::TypeCode_var came = properties[0].value.type();
        yes = same(code, came) && same(sent.value, properties[0].value);
        print(properties[0].value);
    }
    std::cout << (yes ? "\n" : ", not what was sent\n");
    return yes;
}

static bool add_type(const Trader &trader, const Sent &sent) {
    CORBA::TypeCode_var code = sent.value.type();
    Repository::PropStructSeq properties;
    properties.length(1);
    properties[0].name = sent.property;
    properties[0].value_type = code;
    properties[0].mode = Repository::PROP_MANDATORY;
    Repository::ServiceTypeNameSeq none;
    trader.types->add_type(sent.type, "", properties, none);
    Repository::TypeStruct_var type = trader.types->describe_type(sent.type);
    bool yes = type->props.length() == 1 && same(code, type->props[0].value_type);
    std::cout << "type " << sent.type << (yes ? "\n" : ", not what was sent\n");
    return yes;
}

static bool describe(const Trader &trader, const Sent &sent) {
    CosTrading::PropertySeq properties;
    properties.length(1);
    properties[0].name = sent.property;
    properties[0].value = sent.value;
    CORBA::String_var id = trader.registers->_cxx_export(trader.lookup, sent.type, properties);
    CosTrading::Register::OfferInfo_var offer = trader.registers->describe(id);
    return print("offer", sent, offer->properties);
}

static bool query(const Trader &trader, const Sent &sent) {
    CosTrading::PolicySeq policies;
    CosTrading::Lookup::SpecifiedProps desired;
    CosTrading::OfferSeq_var offers;
    CosTrading::OfferIterator_var rest;
    CosTrading::PolicyNameSeq_var limits;
    CORBA::String_var constraint = CORBA::string_alloc(strlen(sent.property) + 6);
    strcat(strcpy(constraint, "exist "), sent.property);
    desired._d(CosTrading::Lookup::all);
    trader.lookup->query(sent.type, constraint, "first", policies, desired, 10, offers.out(), rest.out(), limits.out());
    return offers->length() == 1 && print("found", sent, offers[0].properties);
}

static bool all(CORBA::ORB_ptr orb, const char *reference) {
    Tree larch, fir, beech, oak;
    oak.name = "oak";
    beech.name = "beech";
    fir.name = "fir";
    larch.name = "larch";
    fir.branches.length(1);
    fir.branches[0] = larch;
    oak.branches.length(2);
    oak.branches[0] = beech;
    oak.branches[1] = fir;
    Line line = {{1, -2}, {3, 4}};
    Sent sent[2] = {{"Wood", "tree", CORBA::Any()}, {"Road", "line", CORBA::Any()}};
    sent[0].value <<= oak;
    sent[1].value <<= line;

    Trader trader;
    CORBA::Object_var object = orb->string_to_object(reference);
    trader.lookup = CosTrading::Lookup::_unchecked_narrow(object);
    trader.registers = trader.lookup->register_if();
    object = trader.lookup->type_repos();
    trader.types = Repository::_unchecked_narrow(object);
    bool yes = true;
    for (int i = 0; i < 2; i++) {
        yes = add_type(trader, sent[i]) && describe(trader, sent[i]) && query(trader, sent[i]) && yes;
    }
    return yes;
}

int main(int count, char **words) {
    CORBA::ORB_var orb = CORBA::ORB_init(count, words);
    if (count != 2) {
        std::cerr << "usage: trees LOOKUP\n";
        return 2;
    }
    try {
        return all(orb, words[1]) ? 0 : 1;
    } catch (const CORBA::Exception &e) {
        std::cerr << e._name() << '\n';
        return 1;
    }
}
