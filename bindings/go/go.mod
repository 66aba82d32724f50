module argon2proved

go 1.19
