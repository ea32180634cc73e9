// Debian's library exports the engine's classes; their headers come from the source package of the same version. Ours is the
// translation of messages alone.
#include "grpc.h"

#include <grpc/grpc.h>

#include <map>
#include <stdexcept>

#include "src/core/lib/iomgr/exec_ctx.h"
#include "src/core/lib/resource_quota/arena.h"
#include "src/core/lib/resource_quota/memory_quota.h"
#include "src/core/lib/resource_quota/resource_quota.h"
#include "src/core/lib/security/authorization/evaluate_args.h"
#include "src/core/lib/security/authorization/grpc_authorization_engine.h"
#include "src/core/lib/transport/metadata_batch.h"

using grpc_core::HeaderMatcher;
using grpc_core::Rbac;
using grpc_core::StringMatcher;
using Permission = Rbac::Permission;
using Principal = Rbac::Principal;

struct Grpc::Parts {
  grpc_core::ExecCtx context;
};

Grpc::Grpc() {
  grpc_init();
  parts_ = std::make_unique<Parts>();
}

Grpc::~Grpc() = default;

struct GrpcRequest::Parts {
  grpc_core::MemoryAllocator allocator =
      grpc_core::ResourceQuota::Default()->memory_quota()->CreateMemoryAllocator("bench");
  grpc_core::ScopedArenaPtr arena = grpc_core::MakeScopedArena(8192, &allocator);
  grpc_metadata_batch metadata{arena.get()};
  grpc_core::EvaluateArgs::PerChannelArgs channel{nullptr, nullptr};
};

GrpcRequest::GrpcRequest(const std::vector<Header>& headers) : parts(std::make_unique<Parts>()) {
  for (const Header& header : headers) {
    parts->metadata.Append(header.name, grpc_core::Slice::FromCopiedString(header.value),
                           [](absl::string_view error, const grpc_core::Slice&) {
                             throw std::runtime_error("gRPC refuses a header: " + std::string(error));
                           });
  }
}

GrpcRequest::~GrpcRequest() = default;

static StringMatcher Text(const envoy::type::matcher::v3::StringMatcher& matcher) {
  if (!matcher.has_prefix()) throw std::runtime_error("a text that is no prefix");
  return *StringMatcher::Create(StringMatcher::Type::kPrefix, matcher.prefix(), !matcher.ignore_case());
}

static HeaderMatcher Header(const envoy::config::route::v3::HeaderMatcher& matcher) {
  if (!matcher.has_exact_match()) throw std::runtime_error("a header that is no exact match");
  return *HeaderMatcher::Create(matcher.name(), HeaderMatcher::Type::kExact, matcher.exact_match(), 0, 0, true,
                                matcher.invert_match());
}

static Permission Of(const envoy::config::rbac::v3::Permission& rule) {
  if (rule.has_and_rules()) {
    std::vector<std::unique_ptr<Permission>> rules;
    for (const auto& inner : rule.and_rules().rules()) rules.push_back(std::make_unique<Permission>(Of(inner)));
    return Permission::MakeAndPermission(std::move(rules));
  }
  if (rule.has_any()) return Permission::MakeAnyPermission();
  if (rule.has_header()) return Permission::MakeHeaderPermission(Header(rule.header()));
  if (rule.has_url_path()) return Permission::MakePathPermission(Text(rule.url_path().path()));
  throw std::runtime_error("a permission of another kind");
}

static Principal Of(const envoy::config::rbac::v3::Principal& rule) {
  if (rule.has_any()) return Principal::MakeAnyPrincipal();
  if (rule.has_header()) return Principal::MakeHeaderPrincipal(Header(rule.header()));
  throw std::runtime_error("a principal of another kind");
}

static Rbac RulesOf(const Filter& filter) {
  std::map<std::string, Rbac::Policy> policies;
  for (const auto& [name, policy] : filter.rules().policies()) {
    std::vector<std::unique_ptr<Permission>> permissions;
    std::vector<std::unique_ptr<Principal>> principals;
    for (const auto& rule : policy.permissions()) permissions.push_back(std::make_unique<Permission>(Of(rule)));
    for (const auto& rule : policy.principals()) principals.push_back(std::make_unique<Principal>(Of(rule)));
    policies.emplace(name, Rbac::Policy(Permission::MakeOrPermission(std::move(permissions)),
                                        Principal::MakeOrPrincipal(std::move(principals))));
  }
  return Rbac(filter.rules().action() == 0 ? Rbac::Action::kAllow : Rbac::Action::kDeny, std::move(policies));
}

struct GrpcEngine::Parts {
  grpc_core::GrpcAuthorizationEngine engine;
};

GrpcEngine::GrpcEngine(const Filter& filter)
    : parts_(new Parts{grpc_core::GrpcAuthorizationEngine(RulesOf(filter))}) {}

GrpcEngine::~GrpcEngine() = default;

bool GrpcEngine::Allows(const GrpcRequest& request) const {
  grpc_core::EvaluateArgs arguments(&request.parts->metadata, &request.parts->channel);
  return parts_->engine.Evaluate(arguments).type == grpc_core::AuthorizationEngine::Decision::Type::kAllow;
}
