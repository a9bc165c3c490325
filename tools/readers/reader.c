/* Reads a raw BTF file by libbpf and prints what libbpf says of it, one fact a line:
 *
 *     head ID WORD..            name offset, info, third word, extra words
 *     name ID =NAME             bytes outside A-Za-z0-9_./- as %HH
 *     element ID INDEX WORD..
 *     size ID WIDTH NUMBER      or: size ID WIDTH error ERRNO
 *     end ID NUMBER             or: end ID error ERRNO
 *     converted same            libbpf's conversion to the other byte order is the second file, byte for byte
 *
 * usage: reader FILE OTHER, where OTHER is the same table in the other byte order. Status 1: libbpf cannot read FILE. */
#include <bpf/btf.h>
#include <ctype.h>
#include <errno.h>
#include <stdio.h>
#include <stdlib.h>
#include <string.h>

static void print_name(const char *name)
{
	putchar('=');
	for (; *name; name++) {
		unsigned char c = *name;
		if (c < 128 && (isalnum(c) || strchr("_./-", c)))
			putchar(c);
		else
			printf("%%%02X", c);
	}
}

static void print_head(__u32 id, const struct btf_type *t)
{
	const __u32 *extra = (const __u32 *)(t + 1);
	int words = 0;

	if (btf_is_int(t) || btf_is_var(t) || btf_is_decl_tag(t))
		words = 1;
	else if (btf_is_array(t))
		words = 3;
	printf("head %u %u %u %u", id, t->name_off, t->info, t->size);
	for (int i = 0; i < words; i++)
		printf(" %u", extra[i]);
	putchar('\n');
}

static void print_elements(__u32 id, const struct btf_type *t)
{
	for (int i = 0; i < btf_vlen(t); i++) {
		if (btf_is_composite(t)) {
			const struct btf_member *m = btf_members(t) + i;
			printf("element %u %d %u %u %u\n", id, i, m->name_off, m->type, m->offset);
		} else if (btf_is_enum(t)) {
			const struct btf_enum *e = btf_enum(t) + i;
			printf("element %u %d %u %u\n", id, i, e->name_off, (__u32)e->val);
		} else if (btf_is_enum64(t)) {
			const struct btf_enum64 *e = btf_enum64(t) + i;
			printf("element %u %d %u %u %u\n", id, i, e->name_off, e->val_lo32, e->val_hi32);
		} else if (btf_is_func_proto(t)) {
			const struct btf_param *p = btf_params(t) + i;
			printf("element %u %d %u %u\n", id, i, p->name_off, p->type);
		} else if (btf_is_datasec(t)) {
			const struct btf_var_secinfo *v = btf_var_secinfos(t) + i;
			printf("element %u %d %u %u %u\n", id, i, v->type, v->offset, v->size);
		}
	}
}

static void print_size(struct btf *btf, __u32 id, int width)
{
	__s64 size;

	if (btf__set_pointer_size(btf, width)) {
		fprintf(stderr, "reader: libbpf takes no pointers of %d bytes\n", width);
		exit(1);
	}
	size = btf__resolve_size(btf, id);
	if (size < 0)
		printf("size %u %d error %lld\n", id, width, (long long)-size);
	else
		printf("size %u %d %lld\n", id, width, (long long)size);
}

static void print_end(struct btf *btf, __u32 id)
{
	int end = btf__resolve_type(btf, id);

	if (end < 0)
		printf("end %u error %d\n", id, -end);
	else
		printf("end %u %d\n", id, end);
}

static int is_converted(struct btf *btf, const char *path)
{
	enum btf_endianness endian = btf__endianness(btf);
	const void *data;
	__u32 size;
	char *other;
	size_t length;
	FILE *file = fopen(path, "rb");
	int same;

	if (!file) {
		perror(path);
		exit(1);
	}
	if (btf__set_endianness(btf, endian == BTF_LITTLE_ENDIAN ? BTF_BIG_ENDIAN : BTF_LITTLE_ENDIAN))
		return 0;
	data = btf__raw_data(btf, &size);
	if (!data)
		return 0;
	other = malloc(size + 1);
	length = fread(other, 1, size + 1, file);
	same = length == size && !memcmp(data, other, size);
	free(other);
	fclose(file);
	return same;
}

int main(int argc, char **argv)
{
	struct btf *btf;

	if (argc != 3) {
		fprintf(stderr, "usage: reader FILE OTHER\n");
		return 2;
	}
	btf = btf__parse_raw(argv[1]);
	if (!btf) {
		fprintf(stderr, "reader: libbpf cannot read %s: %s\n", argv[1], strerror(errno));
		return 1;
	}
	for (__u32 id = 0; id < btf__type_cnt(btf); id++) {
		const struct btf_type *t = btf__type_by_id(btf, id);
		const char *name = btf__name_by_offset(btf, t->name_off);

		print_head(id, t);
		printf("name %u ", id);
		if (name)
			print_name(name);
		putchar('\n');
		print_elements(id, t);
		print_size(btf, id, 4);
		print_size(btf, id, 8);
		print_end(btf, id);
	}
	printf("converted %s\n", is_converted(btf, argv[2]) ? "same" : "otherwise");
	btf__free(btf);
	return 0;
}
