// The peer of `answer` and `canon report` over Google's C++ protobuf: the same frames in, the same frames out. bench/run builds it.
#include "opamp.pb.h"
#include <google/protobuf/io/coded_stream.h>
#include <google/protobuf/io/zero_copy_stream_impl_lite.h>
#include <cstdio>
#include <map>
#include <string>
#include <cstring>
using namespace opamp;
static void put(const std::string& b) {
  unsigned n = b.size(); unsigned char h[4] = {(unsigned char)(n >> 24), (unsigned char)(n >> 16), (unsigned char)(n >> 8), (unsigned char)n};
  fwrite(h, 1, 4, stdout); fwrite(b.data(), 1, n, stdout);
}
int main(int argc, char** argv) {
  bool canon = argc > 1 && !strcmp(argv[1], "canon");
  std::map<std::string, AgentToServer> table;
  unsigned char h[4];
  std::string buf;
  while (fread(h, 1, 4, stdin) == 4) {
    unsigned n = h[0] << 24 | h[1] << 16 | h[2] << 8 | h[3];
    buf.resize(n);
    if (fread(&buf[0], 1, n, stdin) != n) return 1;
    AgentToServer m;
    if (!m.ParseFromString(buf)) return 1;
    if (canon) {
      std::string out;
      { google::protobuf::io::StringOutputStream s(&out); google::protobuf::io::CodedOutputStream c(&s); c.SetSerializationDeterministic(true); m.SerializeToCodedStream(&c); }
      put(out);
      continue;
    }
    ServerToAgent r;
    r.set_instance_uid(m.instance_uid());
    auto it = table.find(m.instance_uid());
    bool full = m.has_agent_description() && (!(m.capabilities() & 0x800) || m.has_health()) && (!(m.capabilities() & 4) || m.has_effective_config())
      && (!(m.capabilities() & 0x1000) || m.has_remote_config_status()) && (!(m.capabilities() & 0x10) || m.has_package_statuses());
    if (full) table[m.instance_uid()] = m;
    else if (it != table.end() && m.sequence_num() == it->second.sequence_num() + 1) {
      AgentToServer& t = it->second;
      if (m.has_agent_description()) *t.mutable_agent_description() = m.agent_description();
      if (m.has_health()) *t.mutable_health() = m.health();
      if (m.has_effective_config()) *t.mutable_effective_config() = m.effective_config();
      if (m.has_remote_config_status()) *t.mutable_remote_config_status() = m.remote_config_status();
      if (m.has_package_statuses()) *t.mutable_package_statuses() = m.package_statuses();
      t.set_sequence_num(m.sequence_num()); t.set_capabilities(m.capabilities());
    } else r.set_flags(1);
    r.set_capabilities(5);
    std::string out; r.SerializeToString(&out); put(out);
  }
}
