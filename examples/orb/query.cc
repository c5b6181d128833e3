// A query to a trader by omniORB, a stock ORB, with the standard's own IDL (CosTrading.idl).
//
//   query REF TYPE CONSTRAINT PREFERENCE
//
// It prints the reference of each offer with its properties, and ends with status 1 where the call fails.

#include <COS/CosTrading.hh>
#include <iostream>

static void print(const CosTrading::Property &property) {
    CORBA::ULong number;
    const char *text;
    std::cout << "  " << property.name << ' ';
    if (property.value >>= number) {
        std::cout << number;
    } else if (property.value >>= text) {
        std::cout << text;
    } else {
        std::cout << "of another type";
    }
    std::cout << '\n';
}

static void query(CORBA::ORB_ptr orb, char **words) {
    CORBA::Object_var object = orb->string_to_object(words[1]);
    CosTrading::Lookup_var lookup = CosTrading::Lookup::_unchecked_narrow(object);
    CosTrading::PolicySeq policies;
    CosTrading::Lookup::SpecifiedProps desired;
    CosTrading::OfferSeq_var offers;
    CosTrading::OfferIterator_var rest;
    CosTrading::PolicyNameSeq_var limits;
    desired._d(CosTrading::Lookup::all);
    lookup->query(words[2], words[3], words[4], policies, desired, 10, offers.out(), rest.out(), limits.out());
    for (CORBA::ULong i = 0; i < offers->length(); i++) {
        CORBA::String_var reference = orb->object_to_string(offers[i].reference);
        std::cout << "offer " << reference << '\n';
        for (CORBA::ULong j = 0; j < offers[i].properties.length(); j++) {
            print(offers[i].properties[j]);
        }
    }
}

int main(int count, char **words) {
    CORBA::ORB_var orb = CORBA::ORB_init(count, words);
    if (count != 5) {
        std::cerr << "usage: query REF TYPE CONSTRAINT PREFERENCE\n";
        return 2;
    }
    try {
        query(orb, words);
    } catch (const CORBA::Exception &e) {
        std::cerr << e._name() << '\n';
        return 1;
    }
    return 0;
}
