# Hashes a password and verifies it. Fiddle comes with Ruby.
require "fiddle/import"
require "securerandom"

module Argon2
  extend Fiddle::Importer
  dlload "libargon2.so.1"
  extern "int argon2id_hash_encoded(unsigned int, unsigned int, unsigned int, const void *, size_t, const void *, size_t, size_t, char *, size_t)"
  extern "int argon2id_verify(const char *, const void *, size_t)"
  extern "const char *argon2_error_message(int)"
  VERIFY_MISMATCH = -35

  # Returns the hash of a password, to be stored.
  def self.hash(password)
    salt, encoded = SecureRandom.bytes(16), "\0" * 128
    code = argon2id_hash_encoded(2, 19456, 1, password, password.bytesize, salt, salt.bytesize, 32, encoded, encoded.bytesize)
    raise argon2_error_message(code).to_s unless code.zero?
    encoded.unpack1("Z*")
  end

  # Returns whether a stored hash accepts a password.
  def self.accepts?(stored, password)
    code = argon2id_verify(stored, password, password.bytesize)
    raise argon2_error_message(code).to_s unless [0, VERIFY_MISMATCH].include?(code)
    code.zero?
  end
end

stored = Argon2.hash("correct horse")
puts stored
puts "#{Argon2.accepts?(stored, "correct horse")} #{Argon2.accepts?(stored, "wrong horse")}"
