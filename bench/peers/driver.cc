// driver INPUTS ROUNDS MILLISECONDS [WORD..]: runs the engine and its peers in turn within each round, and prints a line for
// each subject: its name, the least and the median nanoseconds of a call over all rounds, and how many pages the system gave
// to a call, on average. Words choose the subjects whose names have one of them. Time is the thread's own on a processor, and
// the least counts, since other work on the machine can only add to it.
// driver INPUTS only NAME CALLS: runs one subject so often, for a profile.
#include <sys/resource.h>
#include <time.h>
#include <unistd.h>

#include <algorithm>
#include <cstdio>
#include <cstdlib>
#include <fstream>
#include <functional>
#include <iterator>
#include <map>
#include <string>
#include <vector>

#include "envoy/service/discovery/v3/discovery.pb.h"
#include "grpc.h"

extern "C" {
uint64_t engine_admit(const char* filter, size_t length, uint64_t rounds);
uint64_t engine_admit_together(const char* filter, size_t length, uint64_t count, uint64_t rounds);
uint64_t engine_head(const char* head, size_t length, uint64_t rounds);
uint64_t engine_kept(const char* head, size_t length, uint64_t rounds);
uint64_t engine_httparse(const char* head, size_t length, uint64_t rounds);
uint64_t engine_decide(const char* filter, size_t filter_length, const char* head, size_t head_length, uint64_t copies,
                       uint64_t rounds);
uint64_t engine_stream(const char* stream, size_t length, size_t piece, uint64_t rounds);
uint64_t engine_feed(const char* stream, size_t length, size_t piece, uint64_t rounds);
uint64_t rust_httparse(const char* head, size_t length, uint64_t rounds);
uint64_t rust_head(const char* head, size_t length, uint64_t rounds);
}

static constexpr uint64_t kCopies = 4;
static constexpr size_t kPiece = 16384;

struct Subject {
  std::string name;
  std::function<void(uint64_t)> calls;
  uint64_t count = 1;
  double fixed = 0;
  std::vector<double> nanoseconds = {};
  long faults = 0;
};

static std::string folder;
static std::vector<Subject> subjects;

[[noreturn]] static void Stop(const std::string& why) {
  fprintf(stderr, "driver: %s\n", why.c_str());
  exit(1);
}

static void Expect(bool holds, const std::string& name) {
  if (!holds) Stop("a wrong answer of " + name);
}

// The file's bytes, which stay for as long as the program runs.
static const std::string& Input(const std::string& name) {
  static std::map<std::string, std::string> files;
  std::string& bytes = files[name];
  if (bytes.empty()) {
    std::ifstream file(folder + "/" + name, std::ios::binary);
    bytes.assign(std::istreambuf_iterator<char>(file), {});
    if (bytes.empty()) Stop("cannot read " + name);
  }
  return bytes;
}

static void Add(const std::string& name, std::function<void(uint64_t)> calls) { subjects.push_back({name, calls}); }

static Filter Parsed(const std::string& bytes) {
  Filter filter;
  if (!filter.ParseFromString(bytes)) Stop("libprotobuf refuses a filter");
  return filter;
}

static void AddDecision(const std::string& kind, int count, bool last) {
  std::string end = (last ? "_last_" : "_none_") + std::to_string(count);
  const std::string& filter = Input(kind + "_" + std::to_string(count) + ".bin");
  const std::string& head = Input(kind + end + ".http");
  uint64_t wanted = last ? count - 1 : 1000;
  std::string name = "decide_" + kind + end;
  Add("engine_" + name, [=, &filter, &head](uint64_t calls) {
    uint64_t rounds = (calls + kCopies - 1) / kCopies;
    uint64_t sum = engine_decide(filter.data(), filter.size(), head.data(), head.size(), kCopies, rounds);
    Expect(sum == wanted * kCopies * rounds, name);
  });
  char path[32], user[32];
  snprintf(path, sizeof path, kind == "path" ? "/svc%03d/item" : "/svc/item", count - 1);
  snprintf(user, sizeof user, "user%03d", count - 1);
  auto* engine = new GrpcEngine(Parsed(filter));
  auto* request = new GrpcRequest({{":path", path},
                                   {":method", "GET"},
                                   {":authority", "bench.example"},
                                   {"user-agent", "peers"},
                                   {"accept", "*/*"},
                                   {"x-user", last ? user : "nobody"}});
  Add("grpc_" + name, [=](uint64_t calls) {
    for (uint64_t call = 0; call < calls; call++) Expect(engine->Allows(*request) == last, "gRPC's " + name);
  });
}

static void AddAdmission(const std::string& kind, int count) {
  std::string name = "admit_" + kind + "_" + std::to_string(count);
  const std::string& filter = Input(kind + "_" + std::to_string(count) + ".bin");
  Add("engine_" + name, [=, &filter](uint64_t calls) {
    Expect(engine_admit(filter.data(), filter.size(), calls) == calls * count, name);
  });
  Add("protobuf_" + name, [=, &filter](uint64_t calls) {
    for (uint64_t call = 0; call < calls; call++) {
      Filter message;
      Expect(message.ParseFromString(filter), "libprotobuf");
    }
  });
  Add("grpc_" + name, [=, &filter](uint64_t calls) {
    for (uint64_t call = 0; call < calls; call++) GrpcEngine engine(Parsed(filter));
  });
}

static void AddHead(int fields) {
  std::string name = "head_" + std::to_string(fields);
  const std::string& head = Input("fields_" + std::to_string(fields) + ".http");
  auto add = [&](const std::string& who, auto read, uint64_t wanted) {
    Add(who + "_" + name, [=, &head](uint64_t calls) {
      Expect(read(head.data(), head.size(), calls) == wanted * calls, who + "'s " + name);
    });
  };
  add("engine", engine_head, fields);
  add("kept", engine_kept, fields);
  add("rust", rust_head, fields);
  add("port_httparse", engine_httparse, head.size());
  add("httparse", rust_httparse, head.size());
}

// Cuts the stream into its messages, and parses each: how many resources they have.
static uint64_t ProtobufStream(const std::string& stream) {
  uint64_t resources = 0;
  for (size_t at = 0; at + 5 <= stream.size();) {
    auto byte = [&](int index) { return size_t(static_cast<unsigned char>(stream[at + index])); };
    size_t length = byte(1) << 24 | byte(2) << 16 | byte(3) << 8 | byte(4);
    envoy::service::discovery::v3::DiscoveryResponse response;
    Expect(response.ParseFromArray(stream.data() + at + 5, length), "libprotobuf");
    resources += response.resources_size();
    at += 5 + length;
  }
  return resources;
}

static void AddStream(const std::string& size, uint64_t resources) {
  std::string name = "stream_" + size;
  const std::string& stream = Input("responses_" + size + ".bin");
  auto add = [&](const std::string& end, size_t piece) {
    Add("engine_" + name + end, [=, &stream](uint64_t calls) {
      Expect(engine_stream(stream.data(), stream.size(), piece, calls) == resources * calls, name);
    });
  };
  add("_in_pieces", kPiece);
  add("_at_once", stream.size());
  Add("protobuf_" + name, [=, &stream](uint64_t calls) {
    for (uint64_t call = 0; call < calls; call++) Expect(ProtobufStream(stream) == resources, "libprotobuf");
  });
}

// The large stream fed to a client, beside the admissions of its eight filters alone: each kept until the last is there, as the
// client does, and each let go before the next.
static void AddFeed() {
  const std::string& stream = Input("responses_large.bin");
  const std::string& filter = Input("path_256.bin");
  auto add = [&](const std::string& name, size_t piece) {
    Add(name, [=, &stream](uint64_t calls) {
      Expect(engine_feed(stream.data(), stream.size(), piece, calls) == calls, name);
    });
  };
  add("engine_feed_in_pieces", kPiece);
  add("engine_feed_at_once", stream.size());
  Add("engine_admissions_together", [&](uint64_t calls) {
    uint64_t sum = engine_admit_together(filter.data(), filter.size(), 8, calls);
    Expect(sum == 8 * 256 * calls, "the admissions that are kept");
  });
  Add("engine_admissions_in_turn", [&](uint64_t calls) {
    Expect(engine_admit(filter.data(), filter.size(), 8 * calls) == 8 * 256 * calls, "the admissions");
  });
}

static double Now() {
  timespec time;
  clock_gettime(CLOCK_THREAD_CPUTIME_ID, &time);
  return time.tv_sec * 1e9 + time.tv_nsec;
}

static long Faults() {
  rusage usage;
  getrusage(RUSAGE_THREAD, &usage);
  return usage.ru_minflt;
}

static double Timed(const Subject& subject, uint64_t count) {
  double start = Now();
  subject.calls(count);
  return Now() - start;
}

// Finds what a run costs without calls, and how many calls take so many milliseconds.
static void Tune(Subject& subject, double milliseconds) {
  subject.fixed = 1e18;
  for (int turn = 0; turn < 5; turn++) subject.fixed = std::min(subject.fixed, Timed(subject, 0));
  for (subject.count = kCopies;; subject.count *= 4) {
    double taken = (Timed(subject, subject.count) - subject.fixed) / 1e6;
    if (taken > milliseconds / 8) {
      subject.count = std::max(kCopies, uint64_t(subject.count * milliseconds / taken));
      break;
    }
  }
  subject.count = (subject.count + kCopies - 1) / kCopies * kCopies;
}

static void Measure(Subject& subject) {
  long before = Faults();
  double taken = Timed(subject, subject.count) - subject.fixed;
  subject.faults += Faults() - before;
  subject.nanoseconds.push_back(taken / subject.count);
}

static void Choose(const std::vector<std::string>& words) {
  auto is_left_out = [&](const Subject& subject) {
    return std::none_of(words.begin(), words.end(),
                        [&](const std::string& word) { return subject.name.find(word) != std::string::npos; });
  };
  subjects.erase(std::remove_if(subjects.begin(), subjects.end(), is_left_out), subjects.end());
}

int main(int count, char** words) {
  if (count < 4) Stop("usage: driver INPUTS ROUNDS MILLISECONDS [WORD..] | driver INPUTS only NAME CALLS");
  Grpc grpc;
  folder = words[1];
  for (std::string kind : {"path", "deep"})
    for (int policies : {1, 256}) {
      for (bool last : {true, false}) AddDecision(kind, policies, last);
      AddAdmission(kind, policies);
    }
  for (int fields : {4, 60}) AddHead(fields);
  AddStream("large", 8);
  AddStream("small", 500);
  AddFeed();
  if (count == 5 && std::string(words[2]) == "only") {
    for (Subject& subject : subjects)
      if (subject.name == words[3]) {
        subject.calls(atol(words[4]));
        _exit(0);
      }
    Stop("no subject " + std::string(words[3]));
  }
  if (count > 4) Choose({words + 4, words + count});
  int rounds = atoi(words[2]);
  double milliseconds = atof(words[3]);
  for (Subject& subject : subjects) Tune(subject, milliseconds);
  for (int round = 0; round < rounds; round++)
    for (Subject& subject : subjects) Measure(subject);
  for (Subject& subject : subjects) {
    auto& times = subject.nanoseconds;
    std::sort(times.begin(), times.end());
    double faults = double(subject.faults) / (double(rounds) * subject.count);
    printf("%s %.2f %.2f %.1f\n", subject.name.c_str(), times.front(), times[times.size() / 2], faults);
  }
  fflush(stdout);
  _exit(0);  // gRPC's threads need not be waited for
}
