// A ledger in C++: amounts of 64 bits with 20 places behind the point, whose interest is refused rather than wrong.
#include "fixed.h"
#include <cstdio>
#include <optional>

class Amount {
public:
  static constexpr uint32_t places = 20;

  constexpr explicit Amount(int64_t units) : units_(units) {}

  // The sum, where it fits.
  std::optional<Amount> plus(Amount other) const {
    fixed_i64 sum;
    return number(fixed_i64_add(units_, other.units_, &sum), sum);
  }

  // The share of it, rounded down, where it fits.
  std::optional<Amount> times(Amount share) const {
    fixed_i64 product;
    return number(fixed_i64_mul(units_, share.units_, places, &product), product);
  }

  // The quotient, rounded toward zero, where there is one and it fits.
  std::optional<Amount> over(Amount divisor) const {
    fixed_i64 quotient;
    return number(fixed_i64_div(units_, divisor.units_, places, &quotient), quotient);
  }

  int64_t units() const { return units_; }

private:
  static std::optional<Amount> number(int32_t code, fixed_i64 result) {
    int64_t units;
    if (code != FIXED_OK || !fixed_i64_checked(result, &units)) return std::nullopt;
    return Amount(units);
  }

  int64_t units_;
};

static void print(std::optional<Amount> amount) {
  if (amount) std::printf("%lld\n", static_cast<long long>(amount->units()));
  else std::printf("none\n");
}

int main() {
  const Amount balance(int64_t(1500) << Amount::places);
  const Amount rate((int64_t(3) << Amount::places) / 100); // 3 in 100, rounded down
  const auto interest = balance.times(rate);
  print(interest);
  print(balance.plus(*interest));
  print(Amount(INT64_MAX).plus(balance));
  print(balance.over(Amount(int64_t(12) << Amount::places)));
  print(balance.over(Amount(0)));
}
