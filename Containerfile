# A container with the programs and the examples, and nothing else. In the unpacked archive of `make dist`:
#     docker build --platform linux/amd64 -t rt1553 -f Containerfile .
#     printf 'A c 2c02\nA gap\nslot\n' | docker run --rm -i rt1553
#     printf 'c 2c02\n' | docker run --rm -i rt1553 /bin/rt1553-tool words
FROM scratch
COPY bin/rt1553 bin/rt1553-tool /bin/
COPY examples /examples
CMD ["/bin/rt1553"]
