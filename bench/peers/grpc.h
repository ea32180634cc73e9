// gRPC's own RBAC engine, as its servers run it: grpc_core::GrpcAuthorizationEngine of Debian's library.
#pragma once
#include <memory>
#include <string>
#include <vector>

#include "envoy/extensions/filters/http/rbac/v3/rbac.pb.h"

using Filter = envoy::extensions::filters::http::rbac::v3::RBAC;

// To be made once, before any of the others.
class Grpc {
 public:
  Grpc();
  ~Grpc();

 private:
  struct Parts;
  std::unique_ptr<Parts> parts_;
};

class GrpcRequest {
 public:
  struct Header {
    std::string name, value;
  };
  explicit GrpcRequest(const std::vector<Header>& headers);
  ~GrpcRequest();
  struct Parts;
  std::unique_ptr<Parts> parts;
};

// A filter of the kinds of rules that the benchmark's inputs have.
class GrpcEngine {
 public:
  explicit GrpcEngine(const Filter& filter);
  ~GrpcEngine();
  bool Allows(const GrpcRequest& request) const;

 private:
  struct Parts;
  std::unique_ptr<Parts> parts_;
};
