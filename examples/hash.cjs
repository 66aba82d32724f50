// Hashes a password and verifies it, in CommonJS.
const { load } = require("argon2-proved");

load().then((argon2) => {
  const stored = argon2.hash("correct horse");
  console.log(stored);
  console.log(argon2.verify(stored, "correct horse"), argon2.verify(stored, "wrong horse"));
});
