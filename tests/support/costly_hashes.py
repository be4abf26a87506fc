"""libxcrypt's hashes of "password" with costly settings.

They are written out, since each worker of pytest would make them anew when it collects the tests.
libxcrypt takes half a second for 656,000 rounds.
"""
from __future__ import annotations

SHA512CRYPT_AT_DEFAULT = (  # with the 656,000 rounds of the default policy
    b"$6$rounds=656000$ab$hc10aHkXN.GF5BQag9FBjeGeBnJXHj4GHeiS9SEq5r1wLkbQRKB4zP9d0pztZ6D3nYaEdp3L"
    b"iHXS5HEc4ufoq0"
)
SHA512CRYPT_WITH_ANOTHER_SALT = (  # with 656,000 rounds
    b"$6$rounds=656000$cd$YGC5XOgaVZAr5eLfMQe0xo0vM5FpHO8E6iqGPVSypXUx8VKwwPDsQ64GM0tVmeLxhp.peODo"
    b"Z2V19GUlXZOfl/"
)
SHA512CRYPT_OF_ANOTHER_PASSWORD = (  # of "another one", with 656,000 rounds
    b"$6$rounds=656000$ab$f7vXu.eFCgQ8T8SlTdBnqVwDBEZzMc9tmZ5kDuECTUe2n3bKj3WjLyyHZB1M8kKAmyWwfwUn"
    b"G7xXlB5Lwl8IU1"
)
SHA512CRYPT_WITH_LONGEST_SALT = (  # with 656,000 rounds
    b"$6$rounds=656000$saltsaltsaltsalt$M0AahBWq0qEnPqEFF5L6JDuUmcXjv0AllK4r2Bw3QV0DkB0x5NlMmHqKnL"
    b"rLZjjofWwLTgNkmtNXgDnREQaMM1"
)
SCRYPT_OF_16_MIB = b"$7$C6..../....xxxxxxxx$Jm9CFcgwqAAI/L5yi2q0wHK8iUY5wk8knbfNZHDcUL."
SCRYPT_OF_32_MIB = b"$7$BU..../....ab$Nmpl0XDLelp079fJjPqHXSOgDxJYpD8dPfrjkowKUx7"
SCRYPT_AT_DEFAULT = b"$7$CU..../....ab$4A55KAlzbPi/J3hBHfOo9KGY241BFLQ6dV4No23GMC8"  # 64 MiB
