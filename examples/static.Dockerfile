# Makes an image with only the static commands of a release, which are unpacked in this folder.
FROM scratch
COPY argon2-passwd argon2-audit argon2-calibrate argon2-tool /
USER 65534:65534
ENTRYPOINT ["/argon2-passwd"]
