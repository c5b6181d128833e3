// A trader of omniORB's whose query does nothing: each is answered with the same two offers, made before the first one.
//
//     prebuilt PORT KEY    listens at 127.0.0.1 and answers the Lookup under this key, until it is ended
//
// What is left is what the ORB itself takes for a Request of CosTrading::Lookup::query and its Reply.

#include <COS/CosTrading.hh>
#include <cstdio>
#include <string>

class Prebuilt : public POA_CosTrading::Lookup {
    CosTrading::Offer offers[2];

    [[noreturn]] static void none() { throw CORBA::NO_IMPLEMENT(); }

public:
    explicit Prebuilt(CORBA::ORB_ptr orb) {
        for (int at = 0; at < 2; ++at) {
            std::string url = "corbaloc::1.0@127.0.0.1:9/p" + std::to_string(at);
            offers[at].reference = orb->string_to_object(url.c_str());
        }
    }

    void query(const char *, const char *, const char *, const CosTrading::PolicySeq &,
               const CosTrading::Lookup::SpecifiedProps &, CORBA::ULong, CosTrading::OfferSeq_out found,
               CosTrading::OfferIterator_out rest, CosTrading::PolicyNameSeq_out limits) override {
        // (the sequence doesn't own them, so no offer is copied)
        found = new CosTrading::OfferSeq(2, 2, offers, 0);
        rest = CosTrading::OfferIterator::_nil();
        limits = new CosTrading::PolicyNameSeq();
    }

    CosTrading::Lookup_ptr lookup_if() override { none(); }
    CosTrading::Register_ptr register_if() override { none(); }
    CosTrading::Link_ptr link_if() override { none(); }
    CosTrading::Proxy_ptr proxy_if() override { none(); }
    CosTrading::Admin_ptr admin_if() override { none(); }
    CORBA::Boolean supports_modifiable_properties() override { none(); }
    CORBA::Boolean supports_dynamic_properties() override { none(); }
    CORBA::Boolean supports_proxy_offers() override { none(); }
    CosTrading::TypeRepository_ptr type_repos() override { none(); }
    CORBA::ULong def_search_card() override { none(); }
    CORBA::ULong max_search_card() override { none(); }
    CORBA::ULong def_match_card() override { none(); }
    CORBA::ULong max_match_card() override { none(); }
    CORBA::ULong def_return_card() override { none(); }
    CORBA::ULong max_return_card() override { none(); }
    CORBA::ULong max_list() override { none(); }
    CORBA::ULong def_hop_count() override { none(); }
    CORBA::ULong max_hop_count() override { none(); }
    CosTrading::FollowOption def_follow_policy() override { none(); }
    CosTrading::FollowOption max_follow_policy() override { none(); }
};

int main(int argc, char **argv) {
    if (argc != 3) {
        std::fprintf(stderr, "usage: prebuilt PORT KEY\n");
        return 2;
    }
    std::string endpoint = std::string("giop:tcp:127.0.0.1:") + argv[1];
    const char *options[][2] = {{"endPoint", endpoint.c_str()}, {nullptr, nullptr}};
    CORBA::ORB_var orb = CORBA::ORB_init(argc, argv, "omniORB4", options);
    // (its keys are the names alone, so that clients of a known key find the object)
    CORBA::Object_var found = orb->resolve_initial_references("omniINSPOA");
    PortableServer::POA_var poa = PortableServer::POA::_narrow(found);
    PortableServer::ObjectId_var id = PortableServer::string_to_ObjectId(argv[2]);
    poa->activate_object_with_id(id, new Prebuilt(orb));
    PortableServer::POAManager_var(poa->the_POAManager())->activate();
    orb->run();
}
