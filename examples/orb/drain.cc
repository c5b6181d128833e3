// Drains one iterator by omniORB, a stock ORB, from several threads at once, each over a connection of its own.
//
//   drain REF TYPE THREADS
//   drain ITERATOR COUNT
//
// The first finds all offers of the type, one of them in the reply, and has each thread ask for the others by next_n(3)
// until the iterator is empty. It prints how many offers were given in all, how many of them twice, and how many threads
// were refused, and then the iterator of a second query, whose connections are gone when the program ends. The second
// asks such an iterator for so many, from a program of its own, and prints how many it got. The status is 1 where a call
// fails.

#include <COS/CosTrading.hh>
#include <cstdlib>
#include <iostream>
#include <mutex>
#include <set>
#include <string>
#include <thread>
#include <vector>

class Offers {
    std::mutex mutex;
    std::set<std::string> references;

  public:
    int count = 0, again = 0, refused = 0;

    void add(CORBA::ORB_ptr orb, const CosTrading::OfferSeq &offers) {
        std::lock_guard<std::mutex> guard(mutex);
        for (CORBA::ULong i = 0; i < offers.length(); i++) {
            CORBA::String_var reference = orb->object_to_string(offers[i].reference);
            count++;
            again += !references.insert(static_cast<const char *>(reference)).second;
        }
    }

    void refuse(const CORBA::Exception &fault) {
        std::lock_guard<std::mutex> guard(mutex);
        refused++;
        std::cerr << fault._name() << '\n';
    }
};

static void query(CosTrading::Lookup_ptr lookup, const char *type, CosTrading::OfferSeq_out offers,
                  CosTrading::OfferIterator_out rest) {
    CosTrading::PolicySeq policies;
    CosTrading::Lookup::SpecifiedProps desired;
    CosTrading::PolicyNameSeq_var limits;
    desired._d(CosTrading::Lookup::none);
    lookup->query(type, "TRUE", "first", policies, desired, 1, offers, rest, limits.out());
}

static void ask_on(CORBA::ORB_ptr orb, CosTrading::OfferIterator_ptr rest, Offers &all) {
    try {
        CosTrading::OfferSeq_var batch;
        for (bool more = true; more;) {
            more = rest->next_n(3, batch.out());
            all.add(orb, batch.in());
        }
    } catch (const CORBA::Exception &fault) {
        all.refuse(fault);
    }
}

static int drain(CORBA::ORB_ptr orb, char **words) {
    CORBA::Object_var object = orb->string_to_object(words[1]);
    CosTrading::Lookup_var lookup = CosTrading::Lookup::_unchecked_narrow(object);
    CosTrading::OfferSeq_var offers;
    CosTrading::OfferIterator_var rest;
    Offers all;
    query(lookup, words[2], offers.out(), rest.out());
    all.add(orb, offers.in());
    std::vector<std::thread> threads;
    for (int i = 0; i < std::atoi(words[3]); i++) {
        threads.emplace_back([&] { ask_on(orb, rest, all); });
    }
    for (auto &thread : threads) {
        thread.join();
    }
    std::cout << all.count << " offers, " << all.again << " twice, " << all.refused << " refused\n";
    query(lookup, words[2], offers.out(), rest.out());
    CORBA::String_var reference = orb->object_to_string(rest);
    std::cout << reference << '\n';
    return all.refused ? 1 : 0;
}

static int ask(CORBA::ORB_ptr orb, char **words) {
    CORBA::Object_var object = orb->string_to_object(words[1]);
    CosTrading::OfferIterator_var rest = CosTrading::OfferIterator::_unchecked_narrow(object);
    CosTrading::OfferSeq_var batch;
    rest->next_n(std::atoi(words[2]), batch.out());
    std::cout << batch->length() << " offers\n";
    return 0;
}

int main(int count, char **words) {
    const char *options[][2] = {{"oneCallPerConnection", "1"}, {"maxGIOPConnectionPerServer", "16"}, {nullptr, nullptr}};
    CORBA::ORB_var orb = CORBA::ORB_init(count, words, "omniORB4", options);
    if (count != 3 && count != 4) {
        std::cerr << "usage: drain REF TYPE THREADS, or drain ITERATOR COUNT\n";
        return 2;
    }
    try {
        return count == 4 ? drain(orb, words) : ask(orb, words);
    } catch (const CORBA::Exception &fault) {
        std::cerr << fault._name() << '\n';
        return 1;
    }
}
