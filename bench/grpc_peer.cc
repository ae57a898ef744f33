// The other end of bench/grpc.sh, on grpc's C core: a server of the three methods that it times, and a client of the same
// methods to compare with. Messages are written and read by hand, so that nothing but the calls counts.
//
//   grpc_peer serve                       prints `listening 127.0.0.1:PORT`, and serves until it is ended
//   grpc_peer calls ADDRESS COUNT ROUNDS  GetCapabilities, COUNT times on one connection
//   grpc_peer write ADDRESS BYTES ROUNDS  ByteStream.Write of so many bytes, in pieces of 65,536
//   grpc_peer read  ADDRESS BYTES ROUNDS  ByteStream.Read of so many bytes
//
// A client prints the microseconds of each round, a line each.
#include <grpcpp/generic/async_generic_service.h>
#include <grpcpp/generic/generic_stub.h>
#include <grpcpp/grpcpp.h>

#include <chrono>
#include <cstdint>
#include <cstdlib>
#include <iostream>
#include <memory>
#include <string>
#include <vector>

namespace {

using grpc::ByteBuffer;

constexpr char kCapabilities[] = "/build.bazel.remote.execution.v2.Capabilities/GetCapabilities";
constexpr char kWrite[] = "/google.bytestream.ByteStream/Write";
constexpr char kRead[] = "/google.bytestream.ByteStream/Read";
constexpr size_t kPiece = 65536;

// ---- messages (remote_execution.proto, bytestream.proto)

void PutVarint(std::string* out, uint64_t n) {
  for (; n >= 128; n >>= 7) out->push_back(static_cast<char>(n | 128));
  out->push_back(static_cast<char>(n));
}

void PutBytes(std::string* out, int field, const std::string& bytes) {
  PutVarint(out, static_cast<uint64_t>(field) << 3 | 2);
  PutVarint(out, bytes.size());
  *out += bytes;
}

void PutNumber(std::string* out, int field, uint64_t n) {
  PutVarint(out, static_cast<uint64_t>(field) << 3);
  PutVarint(out, n);
}

ByteBuffer BufferOf(const std::string& bytes) {
  grpc::Slice slice(bytes);
  return ByteBuffer(&slice, 1);
}

std::string BytesOf(const ByteBuffer& buffer) {
  std::vector<grpc::Slice> slices;
  std::string bytes;
  if (buffer.Dump(&slices).ok())
    for (const auto& slice : slices) bytes.append(reinterpret_cast<const char*>(slice.begin()), slice.size());
  return bytes;
}

// Calls `see(field, number, bytes)` for each field of a message of numbers and bytes.
template <typename See>
void EachField(const std::string& message, See see) {
  size_t at = 0;
  auto varint = [&] {
    uint64_t n = 0;
    for (int shift = 0; at < message.size(); shift += 7) {
      const auto byte = static_cast<unsigned char>(message[at++]);
      n |= static_cast<uint64_t>(byte & 127) << shift;
      if (byte < 128) break;
    }
    return n;
  };
  while (at < message.size()) {
    const uint64_t key = varint();
    const uint64_t n = varint();
    if ((key & 7) == 2) {
      see(static_cast<int>(key >> 3), n, message.data() + at);
      at += n;
    } else {
      see(static_cast<int>(key >> 3), n, nullptr);
    }
  }
}

// ServerCapabilities of the versions 2.0 to 2.1
std::string Capabilities() {
  std::string low, high, message;
  PutNumber(&low, 1, 2);
  PutNumber(&high, 1, 2);
  PutNumber(&high, 2, 1);
  PutBytes(&message, 4, low);
  PutBytes(&message, 5, high);
  return message;
}

// ---- the server

class Answer : public grpc::ServerGenericBidiReactor {
 public:
  explicit Answer(const std::string& method) : method_(method) { StartRead(&in_); }

  void OnReadDone(bool ok) override {
    if (ok) Hear(BytesOf(in_));
    if (ok && method_ == kWrite) return StartRead(&in_);
    if (method_ == kCapabilities) return Last(Capabilities());
    if (method_ == kWrite) {
      std::string message;
      PutNumber(&message, 1, written_);
      return Last(message);
    }
    if (method_ == kRead) return GoOn();
    Finish(grpc::Status(grpc::StatusCode::UNIMPLEMENTED, method_));
  }

  void OnWriteDone(bool ok) override {
    if (!ok) return Finish(grpc::Status::CANCELLED);
    GoOn();
  }

  void OnDone() override { delete this; }

 private:
  void Hear(const std::string& message) {
    EachField(message, [&](int field, uint64_t n, const char* bytes) {
      if (method_ == kWrite && field == 10) written_ += n;
      if (method_ == kRead && field == 1) {
        const std::string name(bytes, n);
        left_ = std::strtoull(name.c_str() + name.rfind('/') + 1, nullptr, 10);
      }
    });
  }

  void GoOn() {
    if (left_ == 0) return Finish(grpc::Status::OK);
    std::string message;
    PutBytes(&message, 10, std::string(std::min<uint64_t>(left_, kPiece), 'x'));
    left_ -= std::min<uint64_t>(left_, kPiece);
    out_ = BufferOf(message);
    StartWrite(&out_);
  }

  void Last(const std::string& message) {
    out_ = BufferOf(message);
    StartWriteAndFinish(&out_, grpc::WriteOptions(), grpc::Status::OK);
  }

  std::string method_;
  ByteBuffer in_, out_;
  uint64_t written_ = 0, left_ = 0;
};

class Service : public grpc::CallbackGenericService {
  grpc::ServerGenericBidiReactor* CreateReactor(grpc::GenericCallbackServerContext* context) override {
    return new Answer(context->method());
  }
};

int Serve() {
  Service service;
  int port = 0;
  grpc::ServerBuilder builder;
  builder.AddListeningPort("127.0.0.1:0", grpc::InsecureServerCredentials(), &port);
  builder.RegisterCallbackGenericService(&service);
  const auto server = builder.BuildAndStart();
  if (!server) return 1;
  std::cout << "listening 127.0.0.1:" << port << std::endl;
  server->Wait();
  return 0;
}

// ---- the client

class Client {
 public:
  explicit Client(const std::string& address)
      : stub_(grpc::CreateChannel(address, grpc::InsecureChannelCredentials())) {}

  // Sends the messages, and answers how many bytes came back.
  uint64_t Call(const char* method, const std::vector<ByteBuffer>& messages) {
    grpc::ClientContext context;
    auto call = stub_.PrepareCall(&context, method, &queue_);
    call->StartCall(this);
    Next();
    for (size_t i = 0; i < messages.size(); ++i) {
      if (i + 1 == messages.size())
        call->WriteLast(messages[i], grpc::WriteOptions(), this);
      else
        call->Write(messages[i], this);
      Next();
    }
    uint64_t count = 0;
    ByteBuffer answer;
    for (call->Read(&answer, this); Next(); call->Read(&answer, this)) count += answer.Length();
    grpc::Status status;
    call->Finish(&status, this);
    Next();
    if (!status.ok()) std::exit(1);
    return count;
  }

  // A call of one message that is answered by one.
  void Unary(const char* method, const ByteBuffer& message) {
    grpc::ClientContext context;
    auto call = stub_.PrepareUnaryCall(&context, method, message, &queue_);
    ByteBuffer answer;
    grpc::Status status;
    call->StartCall();
    call->Finish(&answer, &status, this);
    Next();
    if (!status.ok()) std::exit(1);
  }

 private:
  bool Next() {
    void* tag = nullptr;
    bool ok = false;
    return queue_.Next(&tag, &ok) && ok;
  }

  grpc::CompletionQueue queue_;
  grpc::GenericStub stub_;
};

std::vector<ByteBuffer> Pieces(uint64_t size) {
  std::vector<ByteBuffer> pieces;
  for (uint64_t at = 0; at < size; at += kPiece) {
    const uint64_t length = std::min<uint64_t>(size - at, kPiece);
    std::string message;
    if (at == 0) PutBytes(&message, 1, "uploads/1/blobs/0/" + std::to_string(size));
    PutNumber(&message, 2, at);
    if (at + length == size) PutNumber(&message, 3, 1);
    PutBytes(&message, 10, std::string(length, 'x'));
    pieces.push_back(BufferOf(message));
  }
  return pieces;
}

void Work(Client* client, const std::string& work, uint64_t size) {
  if (work == "calls")
    for (uint64_t i = 0; i < size; ++i) client->Unary(kCapabilities, BufferOf(""));
  if (work == "write") client->Call(kWrite, Pieces(size));
  if (work == "read") {
    std::string message;
    PutBytes(&message, 1, "blobs/0/" + std::to_string(size));
    client->Call(kRead, {BufferOf(message)});
  }
}

}  // namespace

int main(int argc, char** argv) {
  if (argc == 2 && std::string(argv[1]) == "serve") return Serve();
  if (argc != 5) {
    std::cerr << "usage: grpc_peer serve | calls|write|read ADDRESS SIZE ROUNDS" << std::endl;
    return 2;
  }
  Client client(argv[2]);
  Work(&client, "calls", 1);  // makes the connection
  for (int round = std::atoi(argv[4]); round > 0; --round) {
    const auto begin = std::chrono::steady_clock::now();
    Work(&client, argv[1], std::strtoull(argv[3], nullptr, 10));
    const auto time = std::chrono::steady_clock::now() - begin;
    std::cout << std::chrono::duration_cast<std::chrono::microseconds>(time).count() << std::endl;
  }
}
